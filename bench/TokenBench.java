import com.sun.source.util.JavacTask;
import com.sun.tools.javac.file.JavacFileManager;
import com.sun.tools.javac.parser.Scanner;
import com.sun.tools.javac.parser.ScannerFactory;
import com.sun.tools.javac.parser.Tokens.TokenKind;
import com.sun.tools.javac.util.Context;
import java.io.BufferedReader;
import java.io.IOException;
import java.io.InputStreamReader;
import java.lang.management.ManagementFactory;
import java.net.URI;
import java.nio.charset.StandardCharsets;
import java.nio.file.Files;
import java.nio.file.Path;
import java.util.List;
import javax.tools.JavaCompiler;
import javax.tools.JavaFileObject;
import javax.tools.SimpleJavaFileObject;
import javax.tools.ToolProvider;

/**
 * Scans and parses one file by the JDK, again and again. The word is the file; each line of the input is
 * `scanner` or `parser` and is answered by the seconds of such a round and the number of tokens or of units.
 */
final class TokenBench {
    private interface Round {
        long run() throws IOException;
    }

    private static final class Source extends SimpleJavaFileObject {
        private final byte[] bytes;

        Source(byte[] bytes) {
            super(URI.create("string:///Sample.java"), JavaFileObject.Kind.SOURCE);
            this.bytes = bytes;
        }

        @Override
        public CharSequence getCharContent(boolean ignoreErrors) {
            return new String(bytes, StandardCharsets.UTF_8);
        }
    }

    // One context for all rounds, as a compiler has one for all files.
    private static ScannerFactory scanners() {
        Context context = new Context();
        JavacFileManager.preRegister(context);
        return ScannerFactory.instance(context);
    }

    // The number of tokens.
    private static long scan(ScannerFactory scanners, byte[] bytes) {
        Scanner scanner = scanners.newScanner(new String(bytes, StandardCharsets.UTF_8), true);
        long tokens = 0;
        scanner.nextToken();
        while (scanner.token().kind != TokenKind.EOF) {
            tokens++;
            scanner.nextToken();
        }
        return tokens;
    }

    // The number of units.
    private static long parse(byte[] bytes) throws IOException {
        JavaCompiler compiler = ToolProvider.getSystemJavaCompiler();
        List<String> options = List.of("-proc:none");
        List<Source> sources = List.of(new Source(bytes));
        JavacTask task = (JavacTask) compiler.getTask(null, null, null, options, null, sources);
        long units = 0;
        for (Object unit : task.parse()) {
            units++;
        }
        return units;
    }

    // One round: the processor time of this thread alone, so that neither the collector nor the compiler of
    // the JVM is in it.
    private static String measure(Round round) throws IOException {
        long start = ManagementFactory.getThreadMXBean().getCurrentThreadCpuTime();
        long result = round.run();
        long end = ManagementFactory.getThreadMXBean().getCurrentThreadCpuTime();
        return (end - start) / 1e9 + " " + result;
    }

    public static void main(String[] words) throws IOException {
        byte[] bytes = Files.readAllBytes(Path.of(words[0]));
        ScannerFactory scanners = scanners();
        InputStreamReader input = new InputStreamReader(System.in, StandardCharsets.US_ASCII);
        BufferedReader steps = new BufferedReader(input);
        for (String step = steps.readLine(); step != null; step = steps.readLine()) {
            boolean scans = step.equals("scanner");
            System.out.println(scans ? measure(() -> scan(scanners, bytes)) : measure(() -> parse(bytes)));
        }
    }
}
