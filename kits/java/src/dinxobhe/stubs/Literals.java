package dinxobhe.stubs;

/** Constants as Java texts of ASCII. */
final class Literals {
    private Literals() {}

    /** The text of a constant of a primitive type or of {@code String}. */
    static String of(Object constant) {
        if (constant instanceof String) {
            return string((String) constant);
        }
        if (constant instanceof Character) {
            return character((Character) constant);
        }
        if (constant instanceof Long) {
            return constant + "L";
        }
        if (constant instanceof Float) {
            return floating((Float) constant, "f");
        }
        if (constant instanceof Double) {
            return floating((Double) constant, "");
        }
        return constant.toString();
    }

    private static String floating(Number number, String suffix) {
        double value = number.doubleValue();
        if (Double.isNaN(value)) {
            return "0.0" + suffix + " / 0.0" + suffix;
        }
        if (Double.isInfinite(value)) {
            return (value > 0 ? "1.0" : "-1.0") + suffix + " / 0.0" + suffix;
        }
        return number + suffix;
    }

    private static String character(char c) {
        if (Character.isSurrogate(c)) {
            return Integer.toString(c);
        }
        return c == '\'' ? "'\\''" : "'" + escaped(c) + "'";
    }

    private static String string(String text) {
        StringBuilder literal = new StringBuilder("\"");
        for (int i = 0; i < text.length(); i++) {
            char c = text.charAt(i);
            if (Character.isSurrogate(c) && Character.isBmpCodePoint(text.codePointAt(i))
                    && (i == 0 || Character.isBmpCodePoint(text.codePointAt(i - 1)))) {
                throw new Unwritable("half a character");
            }
            literal.append(escaped(c));
        }
        return literal.append('"').toString();
    }

    private static String escaped(char c) {
        switch (c) {
            case '\n':
                return "\\n";
            case '\r':
                return "\\r";
            case '\t':
                return "\\t";
            case '\b':
                return "\\b";
            case '\f':
                return "\\f";
            case '\\':
                return "\\\\";
            case '"':
                return "\\\"";
            default:
                return c < ' ' ? String.format("\\%03o", (int) c)
                    : c < 0x7F ? String.valueOf(c) : String.format("\\u%04x", (int) c);
        }
    }
}
