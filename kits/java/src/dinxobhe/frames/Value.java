package dinxobhe.frames;

import java.util.List;

/** The value of an annotation's element or of a constant, as the frames spell it. */
public final class Value {
    /** What a value is, in the order of the numbers. The type of its content stands behind it. */
    public enum Kind {
        TRUTH(Form.BOOL),
        INT(null),
        CHARACTER(Form.U32),
        TEXT(Form.TEXT),
        CLASS(Mirror.FORM),
        CONSTANT(Ref.FORM),
        ARRAY(null),
        NESTED(WrittenAnnotation.FORM),
        OTHER(Form.TEXT),
        FLOATING(Form.TEXT),
        /** A whole number that is a long; its number is that of an int. */
        LONG(null);

        private final Form<?> form;

        Kind(Form<?> form) {
            this.form = form;
        }
    }

    private final Kind kind;
    private final Object content;

    private Value(Kind kind, Object content) {
        this.kind = kind;
        this.content = content;
    }

    public static Value truth(boolean truth) {
        return new Value(Kind.TRUTH, truth);
    }

    public static Value ofInt(long number) {
        return new Value(Kind.INT, number);
    }

    public static Value ofLong(long number) {
        return new Value(Kind.LONG, number);
    }

    public static Value character(long code) {
        return new Value(Kind.CHARACTER, code);
    }

    public static Value text(String text) {
        return new Value(Kind.TEXT, text);
    }

    public static Value ofClass(Mirror type) {
        return new Value(Kind.CLASS, type);
    }

    public static Value constant(Ref element) {
        return new Value(Kind.CONSTANT, element);
    }

    public static Value array(List<Value> items) {
        return new Value(Kind.ARRAY, List.copyOf(items));
    }

    public static Value nested(WrittenAnnotation annotation) {
        return new Value(Kind.NESTED, annotation);
    }

    public static Value other(String text) {
        return new Value(Kind.OTHER, text);
    }

    public static Value floating(String literal) {
        return new Value(Kind.FLOATING, literal);
    }

    public Kind kind() {
        return kind;
    }

    public boolean truth() {
        return (Boolean) content;
    }

    /** A whole number, or the code of a character. */
    public long number() {
        return (Long) content;
    }

    /** The text of a text, of a floating literal or of another value. */
    public String text() {
        return (String) content;
    }

    public Mirror type() {
        return (Mirror) content;
    }

    public Ref element() {
        return (Ref) content;
    }

    public WrittenAnnotation annotation() {
        return (WrittenAnnotation) content;
    }

    @SuppressWarnings("unchecked")
    public List<Value> items() {
        return (List<Value>) content;
    }

    static final Form<Value> FORM = new Form<>() {
        private static final int INT = 3;
        private static final int LONG = 4;

        private final Form<List<Value>> items = Form.list(this);

        @Override
        public Value read(FieldReader from) throws BadFrame {
            from.open();
            Value value = content(Kind.values()[from.choice(Kind.LONG.ordinal())], from);
            from.close();
            return value;
        }

        private Value content(Kind kind, FieldReader from) throws BadFrame {
            if (kind == Kind.ARRAY) {
                return new Value(kind, items.read(from));
            }
            if (kind != Kind.INT) {
                return new Value(kind, kind.form.read(from));
            }
            int size = from.u8();
            if (size != INT && size != LONG) {
                throw new BadFrame("a whole number of the type " + size);
            }
            return new Value(size == INT ? Kind.INT : Kind.LONG, from.i64());
        }

        @Override
        public void write(Value value, FieldWriter to) {
            boolean isWhole = value.kind == Kind.INT || value.kind == Kind.LONG;
            to.u8(isWhole ? Kind.INT.ordinal() : value.kind.ordinal());
            if (isWhole) {
                to.u8(value.kind == Kind.INT ? INT : LONG);
                to.i64(value.number());
            } else if (value.kind == Kind.ARRAY) {
                items.write(value.items(), to);
            } else {
                content(value.kind.form, value, to);
            }
        }

        @SuppressWarnings("unchecked")
        private <T> void content(Form<T> form, Value value, FieldWriter to) {
            form.write((T) value.content, to);
        }
    };
}
