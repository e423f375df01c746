package dinxobhe.model;

import java.util.regex.Pattern;

/**
 * The texts of doc comments. The host keeps what stands behind the first two stars; for javac any number of
 * stars, a line end and blanks there are part of the marker, and so are stars at the end.
 */
final class DocTexts {
    /** A line that says that what is commented is deprecated. */
    private static final Pattern DEPRECATED = Pattern.compile("^\\s*@deprecated(\\s|$)", Pattern.MULTILINE);

    private DocTexts() {}

    /** Whether a comment, which need not be there, says that something is deprecated. */
    static boolean isDeprecating(String text) {
        return text != null && DEPRECATED.matcher(text).find();
    }

    /** The text that javac has where the host has this one. */
    static String of(String text) {
        String content = text.replace("\r\n", "\n").replace('\r', '\n');
        int start = pastStars(content, 0);
        if (content.startsWith("\n", start)) {
            start++;
        } else {
            start = pastStars(content, pastBlanks(content, start));
        }
        int end = content.length();
        while (end > start && content.charAt(end - 1) == '*') {
            end--;
        }
        return content.substring(start, end);
    }

    private static int pastStars(String text, int from) {
        int at = from;
        while (text.startsWith("*", at)) {
            at++;
        }
        return at;
    }

    private static int pastBlanks(String text, int from) {
        int at = from;
        while (at < text.length() && " \t\f".indexOf(text.charAt(at)) >= 0) {
            at++;
        }
        return at;
    }
}
