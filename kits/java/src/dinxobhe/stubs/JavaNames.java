package dinxobhe.stubs;

import java.nio.charset.StandardCharsets;
import java.text.Normalizer;
import java.util.Arrays;
import javax.lang.model.SourceVersion;

/** Which names can stand in a Java file that the host reads: class files may have others. */
final class JavaNames {
    private static final int MOST_BYTES = 1024;

    private JavaNames() {}

    /** The name, which has to be identifiers that dots join, and not too long. */
    static String checked(CharSequence name) {
        String text = name.toString();
        if (!isDotted(text) || text.getBytes(StandardCharsets.UTF_8).length > MOST_BYTES) {
            throw new Unwritable("no Java name: " + text);
        }
        return text;
    }

    /** Identifiers that dots join. */
    static boolean isDotted(String name) {
        return Arrays.stream(name.split("\\.", -1)).allMatch(JavaNames::isIdentifier);
    }

    /** An identifier of letters, digits, _ and $; the host reads none with other currency signs. */
    static boolean isIdentifier(String name) {
        return isWord(name) && !SourceVersion.isKeyword(name, SourceVersion.RELEASE_11)
            && isWord(Normalizer.normalize(name, Normalizer.Form.NFKC));
    }

    private static boolean isWord(String name) {
        return !name.isEmpty() && isStart(name.codePointAt(0))
            && name.codePoints().allMatch(JavaNames::isPart);
    }

    private static boolean isStart(int c) {
        return Character.isUnicodeIdentifierStart(c) || c == '_' || c == '$';
    }

    private static boolean isPart(int c) {
        return Character.isUnicodeIdentifierPart(c) && !Character.isIdentifierIgnorable(c) || c == '$';
    }
}
