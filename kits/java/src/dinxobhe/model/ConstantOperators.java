package dinxobhe.model;

import dinxobhe.model.ConstantExpression.NotConstant;

/** The operators of constant expressions. */
final class ConstantOperators {
    private ConstantOperators() {}

    static boolean isTrue(Object value) throws NotConstant {
        if (value instanceof Boolean) {
            return (Boolean) value;
        }
        throw new NotConstant("no condition: " + value);
    }

    static Object unary(String operator, Object operand) throws NotConstant {
        if (operator.equals("!")) {
            return !isTrue(operand);
        }
        Number number = promoted(operand);
        if (operator.equals("+")) {
            return number;
        }
        boolean isComplement = operator.equals("~");
        if (number instanceof Integer) {
            return isComplement ? ~number.intValue() : -number.intValue();
        } else if (number instanceof Long) {
            return isComplement ? ~number.longValue() : -number.longValue();
        } else if (isComplement) {
            throw new NotConstant("~ of " + number);
        }
        return number instanceof Float ? (Object) (-number.floatValue()) : (Object) (-number.doubleValue());
    }

    static Object binary(String operator, Object left, Object right) throws NotConstant {
        if (operator.equals("+") && (left instanceof String || right instanceof String)) {
            return left.toString() + right;
        }
        if (left instanceof Boolean && right instanceof Boolean) {
            return logical(operator, (Boolean) left, (Boolean) right);
        }
        Number one = promoted(left);
        Number other = promoted(right);
        if (operator.equals("<<") || operator.startsWith(">>")) {
            return shifted(operator, one, whole(other));
        }
        if (one instanceof Double || other instanceof Double) {
            return ofDoubles(operator, one.doubleValue(), other.doubleValue());
        } else if (one instanceof Float || other instanceof Float) {
            return ofFloats(operator, one.floatValue(), other.floatValue());
        } else if (one instanceof Long || other instanceof Long) {
            return ofLongs(operator, one.longValue(), other.longValue());
        }
        // Sums and products of ints are those of longs, cut to their size.
        Object result = ofLongs(operator, one.longValue(), other.longValue());
        return result instanceof Long ? (Object) ((Long) result).intValue() : result;
    }

    /** A number as an operator takes it: at least an int. */
    private static Number promoted(Object value) throws NotConstant {
        if (value instanceof Character) {
            return (int) (Character) value;
        }
        if (value instanceof Byte || value instanceof Short) {
            return ((Number) value).intValue();
        }
        if (value instanceof Number) {
            return (Number) value;
        }
        throw new NotConstant("no number: " + value);
    }

    private static long whole(Number number) throws NotConstant {
        if (number instanceof Integer || number instanceof Long) {
            return number.longValue();
        }
        throw new NotConstant("no whole number: " + number);
    }

    private static Object logical(String operator, boolean left, boolean right) throws NotConstant {
        switch (operator) {
            case "&&":
            case "&":
                return left & right;
            case "||":
            case "|":
                return left | right;
            case "^":
            case "!=":
                return left ^ right;
            case "==":
                return left == right;
            default:
                throw new NotConstant(operator + " of truth values");
        }
    }

    private static Object shifted(String operator, Number number, long by) throws NotConstant {
        long value = whole(number);
        if (number instanceof Long) {
            return operator.equals("<<") ? value << by : operator.equals(">>") ? value >> by : value >>> by;
        }
        int small = (int) value;
        return operator.equals("<<") ? small << by : operator.equals(">>") ? small >> by : small >>> by;
    }

    private static Object ofLongs(String operator, long left, long right) throws NotConstant {
        switch (operator) {
            case "+":
                return left + right;
            case "-":
                return left - right;
            case "*":
                return left * right;
            case "/":
                return left / right;
            case "%":
                return left % right;
            case "&":
                return left & right;
            case "|":
                return left | right;
            case "^":
                return left ^ right;
            default:
                return compared(operator, Long.compare(left, right), left == right);
        }
    }

    private static Object ofFloats(String operator, float left, float right) throws NotConstant {
        switch (operator) {
            case "+":
                return left + right;
            case "-":
                return left - right;
            case "*":
                return left * right;
            case "/":
                return left / right;
            case "%":
                return left % right;
            default:
                return ofDoubles(operator, left, right);
        }
    }

    private static Object ofDoubles(String operator, double left, double right) throws NotConstant {
        switch (operator) {
            case "+":
                return left + right;
            case "-":
                return left - right;
            case "*":
                return left * right;
            case "/":
                return left / right;
            case "%":
                return left % right;
            default:
                boolean isOrdered = left == right || left < right || left > right;
                return !isOrdered ? operator.equals("!=")
                    : compared(operator, left < right ? -1 : left > right ? 1 : 0, left == right);
        }
    }

    private static Object compared(String operator, int order, boolean isSame) throws NotConstant {
        switch (operator) {
            case "<":
                return order < 0;
            case ">":
                return order > 0;
            case "<=":
                return order <= 0;
            case ">=":
                return order >= 0;
            case "==":
                return isSame;
            case "!=":
                return !isSame;
            default:
                throw new NotConstant(operator);
        }
    }
}
