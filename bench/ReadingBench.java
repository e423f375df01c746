import com.sun.source.util.JavacTask;
import java.io.BufferedReader;
import java.io.IOException;
import java.io.InputStreamReader;
import java.io.Writer;
import java.net.URI;
import java.nio.charset.StandardCharsets;
import java.util.ArrayList;
import java.util.List;
import java.util.Locale;
import javax.tools.Diagnostic;
import javax.tools.JavaFileObject;
import javax.tools.SimpleJavaFileObject;
import javax.tools.StandardJavaFileManager;
import javax.tools.ToolProvider;

/**
 * Parses texts by the JDK at level 11. Each line of the input is the name of a file and, behind a space, its text, which has no line
 * end. It is answered by {@code read}, by the code, the offset and the message of the first error, or by {@code fails} and what the
 * parser ended with where it took an error for a type.
 */
final class ReadingBench {
    private static final List<String> OPTIONS =
        List.of("--release", "11", "-proc:none", "-Xlint:none", "-Xmaxerrs", "1000000");

    private static final String READ = "read";

    // How many texts a task has at most.
    private static final int GROUP = 500;

    private static final class Source extends SimpleJavaFileObject {
        private final String text;
        private String answer = READ;

        Source(String name, String text) {
            super(URI.create("string:///" + name), JavaFileObject.Kind.SOURCE);
            this.text = text;
        }

        @Override
        public CharSequence getCharContent(boolean ignoreErrors) {
            return text;
        }
    }

    // The first error of a text is its answer.
    private static void tell(Diagnostic<? extends JavaFileObject> found) {
        if (found.getKind() != Diagnostic.Kind.ERROR) {
            return;
        }
        Source source = (Source) found.getSource();
        if (source.answer.equals(READ)) {
            String code = found.getCode().replace("compiler.err.", "");
            source.answer = code + " " + found.getPosition() + " " + found.getMessage(Locale.ROOT).replace('\n', ' ');
        }
    }

    // To set a task up takes longer than to parse many texts. One that fails says nothing of those behind the text at which it does.
    private static void parse(StandardJavaFileManager manager, List<Source> sources) throws IOException {
        for (Source source : sources) {
            source.answer = READ;
        }
        try {
            JavacTask task = (JavacTask) ToolProvider.getSystemJavaCompiler()
                .getTask(Writer.nullWriter(), manager, ReadingBench::tell, OPTIONS, null, sources);
            task.parse();
        } catch (IllegalStateException fault) {
            if (sources.size() == 1) {
                sources.get(0).answer = "fails 0 " + fault.getMessage().replace('\n', ' ');
            } else {
                int half = sources.size() / 2;
                parse(manager, sources.subList(0, half));
                parse(manager, sources.subList(half, sources.size()));
            }
        }
    }

    public static void main(String[] none) throws IOException {
        List<Source> sources = new ArrayList<>();
        BufferedReader lines = new BufferedReader(new InputStreamReader(System.in, StandardCharsets.US_ASCII));
        for (String line = lines.readLine(); line != null; line = lines.readLine()) {
            int end = line.indexOf(' ');
            sources.add(new Source(line.substring(0, end), line.substring(end + 1)));
        }
        try (StandardJavaFileManager manager = ToolProvider.getSystemJavaCompiler().getStandardFileManager(null, null, null)) {
            for (int from = 0; from < sources.size(); from += GROUP) {
                parse(manager, sources.subList(from, Math.min(from + GROUP, sources.size())));
            }
        }
        for (Source source : sources) {
            System.out.println(source.answer);
        }
    }
}
