package dinxobhe;

import dinxobhe.bridge.Runner;
import dinxobhe.frames.Answers;
import java.io.FileDescriptor;
import java.io.FileInputStream;
import java.io.FileOutputStream;
import java.io.InputStream;
import java.util.Locale;

/**
 * Runs a processor that was written for javac as a child of the host. The frames are on the standard input
 * and output; what the processor prints goes to the standard error.
 */
public final class Bridge {
    private static final String USAGE = String.join("\n",
        "usage: java -cp dinxobhe.jar:PROCESSORS dinxobhe.Bridge [--claim CLAIM] CLASS",
        "",
        "Runs the annotation processor CLASS as a child of the host.",
        "",
        "  --claim CLAIM   always, never or varies: whether it claims the annotations that it is offered,",
        "                  which is what its process returns; varies where this is left out");

    private static final int FAILED = 1;
    private static final int WRONG_WORDS = 2;

    private Bridge() {}

    public static void main(String[] words) {
        boolean hasClaim = words.length == 3 && words[0].equals("--claim") && isClaim(words[1]);
        if (words.length != 1 && !hasClaim) {
            System.err.println(USAGE);
            System.exit(WRONG_WORDS);
        }
        Answers.Claim claim =
            hasClaim ? Answers.Claim.valueOf(words[1].toUpperCase(Locale.ROOT)) : Answers.Claim.VARIES;
        System.setOut(System.err);
        System.setIn(InputStream.nullInputStream());
        boolean isDone = Runner.run(words[words.length - 1], claim, new FileInputStream(FileDescriptor.in),
            new FileOutputStream(FileDescriptor.out));
        System.exit(isDone ? 0 : FAILED);
    }

    private static boolean isClaim(String word) {
        for (Answers.Claim claim : Answers.Claim.values()) {
            if (claim.name().toLowerCase(Locale.ROOT).equals(word)) {
                return true;
            }
        }
        return false;
    }
}
