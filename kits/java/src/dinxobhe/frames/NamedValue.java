package dinxobhe.frames;

import java.util.List;

/** A value with the name of the element that has it. */
public final class NamedValue {
    private final String name;
    private final Value value;

    public NamedValue(String name, Value value) {
        this.name = name;
        this.value = value;
    }

    public String name() {
        return name;
    }

    public Value value() {
        return value;
    }

    // The form of a value is looked up when one is read or written, since values may hold annotations.
    static final Form<NamedValue> FORM = Form.of(from -> new NamedValue(from.text(), Value.FORM.read(from)),
        (named, to) -> {
            to.text(named.name);
            Value.FORM.write(named.value, to);
        });
    static final Form<List<NamedValue>> LIST = Form.list(FORM);
}
