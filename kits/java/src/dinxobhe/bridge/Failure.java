package dinxobhe.bridge;

import java.io.PrintWriter;
import java.io.StringWriter;
import java.util.stream.Collectors;

/** Tells of an exception that a processor threw. */
final class Failure {
    private static final int LINES = 5;

    private Failure() {}

    /** The first lines of what the exception says and of where it was thrown. */
    static String text(String processor, Throwable thrown) {
        StringWriter trace = new StringWriter();
        thrown.printStackTrace(new PrintWriter(trace));
        return "the processor " + processor + " failed: "
            + trace.toString().lines().limit(LINES).map(String::strip).collect(Collectors.joining("\n  "));
    }
}
