package dinxobhe.frames;

/** What an element is. */
public final class Info {
    /** The kinds of elements, in the order of the numbers. */
    public enum Kind {
        PACKAGE, ENUM, CLASS, ANNOTATION_TYPE, INTERFACE, ENUM_CONSTANT, FIELD, PARAMETER, METHOD,
        CONSTRUCTOR, TYPE_PARAMETER
    }

    private final Frame frame;

    public Info(Frame frame) {
        this.frame = frame;
    }

    public static Frame frame(Kind kind, int modifiers, String simple, String canonical, boolean isVarArgs) {
        return new Frame(Tag.INFO, kind, modifiers, simple, canonical, isVarArgs);
    }

    public Kind kind() {
        return frame.field(0, Kind.class);
    }

    /** The modifiers, written and implied, as bits: public is the lowest. */
    public int modifiers() {
        return frame.field(1, Integer.class);
    }

    public String simpleName() {
        return frame.text(2);
    }

    /** The canonical name of a type or package, and else nothing. */
    public String canonicalName() {
        return frame.text(3);
    }

    public boolean isVarArgs() {
        return frame.truth(4);
    }
}
