package dinxobhe.frames;

/** An option of a build. */
public final class Option {
    private final String key;
    private final String value;

    public Option(String key, String value) {
        this.key = key;
        this.value = value;
    }

    public String key() {
        return key;
    }

    public String value() {
        return value;
    }

    static final Form<Option> FORM = Form.of(from -> new Option(from.text(), from.text()), (option, to) -> {
        to.text(option.key);
        to.text(option.value);
    });
}
