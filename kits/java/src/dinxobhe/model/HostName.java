package dinxobhe.model;

import javax.lang.model.element.Name;

/** A name. */
final class HostName implements Name {
    private final String text;

    HostName(String text) {
        this.text = text;
    }

    @Override
    public boolean contentEquals(CharSequence other) {
        return text.contentEquals(other);
    }

    @Override
    public int length() {
        return text.length();
    }

    @Override
    public char charAt(int index) {
        return text.charAt(index);
    }

    @Override
    public CharSequence subSequence(int start, int end) {
        return text.subSequence(start, end);
    }

    @Override
    public boolean equals(Object other) {
        return other instanceof HostName && text.equals(((HostName) other).text);
    }

    @Override
    public int hashCode() {
        return text.hashCode();
    }

    @Override
    public String toString() {
        return text;
    }
}
