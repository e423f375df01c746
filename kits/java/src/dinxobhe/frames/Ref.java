package dinxobhe.frames;

import java.util.ArrayList;
import java.util.List;

/**
 * Refers to an element: the unit that it is in, and the steps down to it, each a number in a list of
 * children.
 */
public final class Ref {
    private static final String PACKAGE_UNIT = "package-info";

    private final String unit;
    private final List<Integer> path;

    public Ref(String unit, List<Integer> path) {
        this.unit = unit;
        this.path = List.copyOf(path);
    }

    /** The package of this name; the empty name is that of the unnamed package. */
    public static Ref ofPackage(String name) {
        return new Ref(name.isEmpty() ? PACKAGE_UNIT : name + "." + PACKAGE_UNIT, List.of());
    }

    /** The type or package that is the unit itself. */
    public static Ref ofUnit(String unit) {
        return new Ref(unit, List.of());
    }

    public String unit() {
        return unit;
    }

    public List<Integer> path() {
        return path;
    }

    public boolean isUnit() {
        return path.isEmpty();
    }

    public boolean isPackage() {
        return isUnit() && (unit.equals(PACKAGE_UNIT) || unit.endsWith("." + PACKAGE_UNIT));
    }

    /** The name of the package that the unit is in. */
    public String packageName() {
        int dot = unit.lastIndexOf('.');
        return dot < 0 ? "" : unit.substring(0, dot);
    }

    public Ref child(int step) {
        List<Integer> steps = new ArrayList<>(path);
        steps.add(step);
        return new Ref(unit, steps);
    }

    /** The element one step above; for a unit there is none. */
    public Ref parent() {
        if (isUnit()) {
            throw new IllegalStateException(this + " is a unit");
        }
        return new Ref(unit, path.subList(0, path.size() - 1));
    }

    @Override
    public boolean equals(Object other) {
        return other instanceof Ref && unit.equals(((Ref) other).unit) && path.equals(((Ref) other).path);
    }

    @Override
    public int hashCode() {
        return 31 * unit.hashCode() + path.hashCode();
    }

    @Override
    public String toString() {
        StringBuilder text = new StringBuilder(unit);
        path.forEach(step -> text.append(':').append(step));
        return text.toString();
    }

    static final Form<Ref> FORM = new Form<>() {
        private final Form<List<Integer>> steps = Form.list(Form.U16);

        @Override
        public Ref read(FieldReader from) throws BadFrame {
            return new Ref(from.text(), steps.read(from));
        }

        @Override
        public void write(Ref ref, FieldWriter to) {
            to.text(ref.unit);
            steps.write(ref.path, to);
        }
    };
}
