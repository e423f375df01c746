package dinxobhe.frames;

import java.util.List;
import java.util.Objects;
import java.util.Optional;

/** A type as the frames spell it. Two mirrors are equal where their spellings are. */
public final class Mirror {
    /** What a mirror is, in the order of the numbers. */
    public enum Kind {
        PRIMITIVE, DECLARED, ERROR, VARIABLE, ARRAY, WILDCARD, EXECUTABLE, NOTHING, VOID, NULL, PACKAGE
    }

    /** The primitive types, in the order of the numbers. */
    public enum Primitive {
        BOOLEAN, BYTE, SHORT, INT, LONG, CHAR, FLOAT, DOUBLE
    }

    /** Which bound a wildcard has, in the order of the numbers. */
    public enum Bound {
        NONE, EXTENDS, SUPER
    }

    public static final Mirror NOTHING = new Mirror(Kind.NOTHING);
    public static final Mirror VOID = new Mirror(Kind.VOID);
    public static final Mirror NULL = new Mirror(Kind.NULL);

    private final Kind kind;
    private Primitive primitive;
    private Ref element;
    private String text = "";
    private Bound bound = Bound.NONE;
    private Mirror inner;
    private List<Ref> variables = List.of();
    private List<Mirror> arguments = List.of();
    private List<Mirror> thrown = List.of();

    private Mirror(Kind kind) {
        this.kind = kind;
    }

    public static Mirror primitive(Primitive which) {
        Mirror mirror = new Mirror(Kind.PRIMITIVE);
        mirror.primitive = which;
        return mirror;
    }

    public static Mirror declared(Ref element, Optional<Mirror> enclosing, List<Mirror> arguments) {
        Mirror mirror = new Mirror(Kind.DECLARED);
        mirror.element = element;
        mirror.inner = enclosing.orElse(null);
        mirror.arguments = List.copyOf(arguments);
        return mirror;
    }

    public static Mirror error(String text) {
        return ofText(Kind.ERROR, text);
    }

    public static Mirror ofPackage(String name) {
        return ofText(Kind.PACKAGE, name);
    }

    private static Mirror ofText(Kind kind, String text) {
        Mirror mirror = new Mirror(kind);
        mirror.text = text;
        return mirror;
    }

    public static Mirror variable(Ref element) {
        Mirror mirror = new Mirror(Kind.VARIABLE);
        mirror.element = element;
        return mirror;
    }

    public static Mirror array(Mirror item) {
        Mirror mirror = new Mirror(Kind.ARRAY);
        mirror.inner = item;
        return mirror;
    }

    /** A wildcard, with a type exactly where it has a bound. */
    public static Mirror wildcard(Bound bound, Optional<Mirror> of) {
        if (of.isPresent() != (bound != Bound.NONE)) {
            throw new IllegalArgumentException("a wildcard with " + bound);
        }
        Mirror mirror = new Mirror(Kind.WILDCARD);
        mirror.bound = bound;
        mirror.inner = of.orElse(null);
        return mirror;
    }

    public static Mirror executable(List<Ref> variables, List<Mirror> parameters, Mirror result,
            List<Mirror> thrown) {
        Mirror mirror = new Mirror(Kind.EXECUTABLE);
        mirror.variables = List.copyOf(variables);
        mirror.arguments = List.copyOf(parameters);
        mirror.inner = result;
        mirror.thrown = List.copyOf(thrown);
        return mirror;
    }

    public Kind kind() {
        return kind;
    }

    public Primitive primitive() {
        return primitive;
    }

    /** The element of a declared type or of a variable. */
    public Ref element() {
        return element;
    }

    /** The text of an error type, or the name of a package. */
    public String text() {
        return text;
    }

    public Bound bound() {
        return bound;
    }

    /** The enclosing type of a declared one, the item of an array, the bound of a wildcard, the result. */
    public Optional<Mirror> inner() {
        return Optional.ofNullable(inner);
    }

    /** The arguments of a declared type, or the parameters of an executable. */
    public List<Mirror> arguments() {
        return arguments;
    }

    public List<Ref> variables() {
        return variables;
    }

    public List<Mirror> thrown() {
        return thrown;
    }

    @Override
    public boolean equals(Object object) {
        if (!(object instanceof Mirror)) {
            return false;
        }
        Mirror other = (Mirror) object;
        return kind == other.kind && primitive == other.primitive && bound == other.bound
            && text.equals(other.text) && Objects.equals(element, other.element)
            && Objects.equals(inner, other.inner) && variables.equals(other.variables)
            && arguments.equals(other.arguments) && thrown.equals(other.thrown);
    }

    @Override
    public int hashCode() {
        return Objects.hash(kind, primitive, bound, text, element, inner, variables, arguments, thrown);
    }

    @Override
    public String toString() {
        return kind + (element == null ? text : element.toString()) + (primitive == null ? "" : primitive)
            + (inner == null ? "" : "(" + inner + ")") + (arguments.isEmpty() ? "" : arguments);
    }

    static final Form<Mirror> FORM = new MirrorForm();
}
