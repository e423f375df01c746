package dinxobhe.model;

import java.util.EnumMap;
import java.util.List;
import java.util.Locale;
import java.util.Map;
import java.util.Optional;
import java.util.Set;
import javax.lang.model.type.TypeKind;

/** Computes constant expressions that are made of literals alone. */
final class ConstantExpression {
    /** The operators with two operands, those that bind least first. */
    private static final List<Set<String>> OPERATORS = List.of(
        Set.of("||"), Set.of("&&"), Set.of("|"), Set.of("^"), Set.of("&"), Set.of("==", "!="),
        Set.of("<", ">", "<=", ">="), Set.of("<<", ">>", ">>>"), Set.of("+", "-"), Set.of("*", "/", "%"));
    private static final Set<String> SIGNS = Set.of("+", "-", "~", "!");
    private static final Map<TypeKind, String> PRIMITIVES = new EnumMap<>(TypeKind.class);

    static {
        for (TypeKind kind : TypeKind.values()) {
            if (kind.isPrimitive()) {
                PRIMITIVES.put(kind, kind.name().toLowerCase(Locale.ROOT));
            }
        }
    }

    private final List<String> tokens;
    private int at;

    private ConstantExpression(List<String> tokens) {
        this.tokens = tokens;
    }

    /** The value of the text, if it is such an expression. */
    static Optional<Object> of(String text) {
        try {
            ConstantExpression expression = new ConstantExpression(ConstantTokens.of(text));
            Object value = expression.conditional();
            return expression.at == expression.tokens.size() ? Optional.of(value) : Optional.empty();
        } catch (NotConstant | ArithmeticException | NumberFormatException e) {
            return Optional.empty();
        }
    }

    /** Something that isn't a constant expression of literals. */
    static final class NotConstant extends Exception {
        private static final long serialVersionUID = 1;

        NotConstant(String message) {
            super(message, null, false, false);
        }
    }

    private String next() {
        return at < tokens.size() ? tokens.get(at) : "";
    }

    private boolean takes(String token) {
        boolean isNext = next().equals(token);
        at += isNext ? 1 : 0;
        return isNext;
    }

    private void expect(String token) throws NotConstant {
        if (!takes(token)) {
            throw new NotConstant("no " + token);
        }
    }

    private Object conditional() throws NotConstant {
        Object condition = binary(0);
        if (!takes("?")) {
            return condition;
        }
        Object then = conditional();
        expect(":");
        Object otherwise = conditional();
        return ConstantOperators.isTrue(condition) ? then : otherwise;
    }

    private Object binary(int level) throws NotConstant {
        if (level == OPERATORS.size()) {
            return unary();
        }
        Object left = binary(level + 1);
        while (OPERATORS.get(level).contains(next())) {
            String operator = next();
            at++;
            left = ConstantOperators.binary(operator, left, binary(level + 1));
        }
        return left;
    }

    private Object unary() throws NotConstant {
        String sign = next();
        if (SIGNS.contains(sign)) {
            at++;
            boolean isNegative = sign.equals("-") && ConstantTokens.isNumber(next());
            return isNegative ? ConstantTokens.value("-" + tokens.get(at++))
                : ConstantOperators.unary(sign, unary());
        }
        if (!takes("(")) {
            return literal();
        }
        Optional<TypeKind> cast = PRIMITIVES.entrySet().stream().filter(one -> one.getValue().equals(next()))
            .map(Map.Entry::getKey).findFirst();
        boolean isText = next().equals("String") || next().equals("java.lang.String");
        if (cast.isPresent() || isText) {
            at++;
            expect(")");
            return cast(cast, unary());
        }
        Object value = conditional();
        expect(")");
        return value;
    }

    private static Object cast(Optional<TypeKind> primitive, Object value) throws NotConstant {
        if (primitive.isEmpty() && value instanceof String) {
            return value;
        }
        return primitive.flatMap(kind -> Constants.converted(value, kind))
            .orElseThrow(() -> new NotConstant("a cast of " + value));
    }

    private Object literal() throws NotConstant {
        if (at == tokens.size()) {
            throw new NotConstant("the end");
        }
        return ConstantTokens.value(tokens.get(at++));
    }
}
