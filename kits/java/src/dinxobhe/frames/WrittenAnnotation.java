package dinxobhe.frames;

import java.util.List;

/** An annotation as it is written: its type, and the values that are given. */
public final class WrittenAnnotation {
    private final Mirror type;
    private final List<NamedValue> values;

    public WrittenAnnotation(Mirror type, List<NamedValue> values) {
        this.type = type;
        this.values = List.copyOf(values);
    }

    public Mirror type() {
        return type;
    }

    public List<NamedValue> values() {
        return values;
    }

    static final Form<WrittenAnnotation> FORM = Form.of(
        from -> new WrittenAnnotation(Mirror.FORM.read(from), NamedValue.LIST.read(from)),
        (annotation, to) -> {
            Mirror.FORM.write(annotation.type, to);
            NamedValue.LIST.write(annotation.values, to);
        });
}
