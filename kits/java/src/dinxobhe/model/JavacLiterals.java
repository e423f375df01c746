package dinxobhe.model;

/** Constants as Java texts, in the form that javac gives them. */
final class JavacLiterals {
    private JavacLiterals() {}

    /** The text of a constant expression with this value. */
    static String of(Object value) {
        if (value instanceof Byte) {
            return String.format("(byte)0x%02x", (Byte) value);
        } else if (value instanceof Short) {
            return "(short)" + value;
        } else if (value instanceof Long) {
            return value + "L";
        } else if (value instanceof Float) {
            return floating((Float) value);
        } else if (value instanceof Double) {
            return floating((Double) value);
        } else if (value instanceof Character) {
            return "'" + escaped((Character) value) + "'";
        } else if (value instanceof String) {
            return quoted((String) value);
        } else if (value instanceof Integer || value instanceof Boolean) {
            return value.toString();
        }
        throw new IllegalArgumentException("Argument is not a primitive type or a string; it "
            + (value == null ? "is a null value." : "has class " + value.getClass().getName()) + ".");
    }

    private static String floating(float value) {
        if (Float.isNaN(value)) {
            return "0.0f/0.0f";
        }
        return Float.isInfinite(value) ? (value < 0 ? "-1.0f/0.0f" : "1.0f/0.0f") : value + "f";
    }

    private static String floating(double value) {
        if (Double.isNaN(value)) {
            return "0.0/0.0";
        }
        return Double.isInfinite(value) ? (value < 0 ? "-1.0/0.0" : "1.0/0.0") : Double.toString(value);
    }

    private static String quoted(String text) {
        StringBuilder quoted = new StringBuilder("\"");
        for (char c : text.toCharArray()) {
            quoted.append(escaped(c));
        }
        return quoted.append('"').toString();
    }

    private static String escaped(char c) {
        switch (c) {
            case '\b':
                return "\\b";
            case '\f':
                return "\\f";
            case '\n':
                return "\\n";
            case '\r':
                return "\\r";
            case '\t':
                return "\\t";
            case '\'':
                return "\\'";
            case '"':
                return "\\\"";
            case '\\':
                return "\\\\";
            default:
                return c >= ' ' && c <= '~' ? String.valueOf(c) : String.format("\\u%04x", (int) c);
        }
    }
}
