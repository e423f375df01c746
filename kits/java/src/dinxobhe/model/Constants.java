package dinxobhe.model;

import dinxobhe.frames.Value;
import java.util.Optional;
import javax.lang.model.type.TypeKind;

/** Constants of primitive types and strings, as they are in the type that is expected of them. */
final class Constants {
    private Constants() {}

    /** The value as it is in a type. There is none where it can't be told, or isn't a constant. */
    static Optional<Object> of(Value value, HostType type) {
        return natural(value).flatMap(constant -> in(type, constant));
    }

    /** The value in its own type. */
    static Optional<Object> natural(Value value) {
        switch (value.kind()) {
            case TRUTH:
                return Optional.of(value.truth());
            case INT:
                return Optional.of((int) value.number());
            case LONG:
                return Optional.of(value.number());
            case CHARACTER:
                return Optional.of((char) value.number());
            case TEXT:
                return Optional.of(value.text());
            case FLOATING:
                return floating(value.text());
            case OTHER:
                return ConstantExpression.of(value.text());
            default:
                return Optional.empty();
        }
    }

    /** The value of a floating literal, with a sign before it or not. */
    static Optional<Object> floating(String literal) {
        String digits = literal.replace("_", "");
        char last = Character.toLowerCase(digits.charAt(digits.length() - 1));
        try {
            if (last == 'f') {
                return Optional.of(Float.parseFloat(digits));
            }
            return Optional.of(Double.parseDouble(digits));
        } catch (NumberFormatException e) {
            return Optional.empty();
        }
    }

    private static Optional<Object> in(HostType type, Object constant) {
        if (type instanceof HostPrimitiveType) {
            return converted(constant, type.getKind());
        }
        boolean isText = constant instanceof String;
        return isText ? Optional.of(constant) : Optional.empty();
    }

    /** A constant in a primitive type, as a cast gives it. */
    static Optional<Object> converted(Object constant, TypeKind kind) {
        if (constant instanceof Boolean) {
            return kind == TypeKind.BOOLEAN ? Optional.of(constant) : Optional.empty();
        }
        Object number = constant instanceof Character ? (Object) (int) (Character) constant : constant;
        if (!(number instanceof Number)) {
            return Optional.empty();
        }
        return Optional.ofNullable(converted((Number) number, kind));
    }

    private static Object converted(Number number, TypeKind kind) {
        boolean isFloating = number instanceof Float || number instanceof Double;
        // A cast of a floating number to a small type goes by way of int.
        int whole = isFloating ? (int) number.doubleValue() : number.intValue();
        switch (kind) {
            case BYTE:
                return (byte) whole;
            case SHORT:
                return (short) whole;
            case CHAR:
                return (char) whole;
            case INT:
                return whole;
            case LONG:
                return isFloating ? (Object) (long) number.doubleValue() : (Object) number.longValue();
            case FLOAT:
                return number.floatValue();
            case DOUBLE:
                return number.doubleValue();
            default:
                return null;
        }
    }
}
