package dinxobhe;

import dinxobhe.stubs.Stubs;
import java.util.Arrays;

/** The commands of this jar: the first word is one, and the others are for it. */
public final class Main {
    private static final String USAGE =
        "usage: java -jar dinxobhe.jar stubs OUT [JAR].. [OPTION].. (stubs --help says more)";

    private Main() {}

    public static void main(String[] words) {
        if (words.length == 0 || !words[0].equals("stubs")) {
            System.err.println(USAGE);
            System.exit(Stubs.WRONG_WORDS);
        }
        System.exit(Stubs.run(Arrays.asList(words).subList(1, words.length), System.out, System.err));
    }
}
