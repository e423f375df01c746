import com.sun.source.util.JavacTask;
import java.io.BufferedReader;
import java.io.IOException;
import java.io.InputStreamReader;
import java.lang.management.ManagementFactory;
import java.net.URI;
import java.nio.charset.StandardCharsets;
import java.nio.file.Files;
import java.nio.file.Path;
import java.util.ArrayList;
import java.util.List;
import javax.tools.JavaCompiler;
import javax.tools.JavaFileObject;
import javax.tools.SimpleJavaFileObject;
import javax.tools.ToolProvider;

/**
 * Parses the same files by the JDK again and again. The word is a file with the path of one of them on each line; each
 * line of the input is answered by the seconds of such a round and the number of compilation units.
 */
final class DeclarationBench {
    private static final class Source extends SimpleJavaFileObject {
        private final byte[] bytes;

        Source(int number, byte[] bytes) {
            super(URI.create("string:///f" + number + "/Sample.java"), JavaFileObject.Kind.SOURCE);
            this.bytes = bytes;
        }

        @Override
        public CharSequence getCharContent(boolean ignoreErrors) {
            return new String(bytes, StandardCharsets.UTF_8);
        }
    }

    private static List<byte[]> files(String list) throws IOException {
        List<byte[]> files = new ArrayList<>();
        for (String path : Files.readAllLines(Path.of(list))) {
            files.add(Files.readAllBytes(Path.of(path)));
        }
        return files;
    }

    // One task for all files, as a compiler has one.
    private static long parse(List<byte[]> files) throws IOException {
        List<Source> sources = new ArrayList<>();
        for (byte[] bytes : files) {
            sources.add(new Source(sources.size(), bytes));
        }
        JavaCompiler compiler = ToolProvider.getSystemJavaCompiler();
        JavacTask task = (JavacTask) compiler.getTask(null, null, null, List.of("-proc:none"), null, sources);
        long units = 0;
        for (Object unit : task.parse()) {
            units++;
        }
        return units;
    }

    public static void main(String[] words) throws IOException {
        List<byte[]> files = files(words[0]);
        BufferedReader rounds = new BufferedReader(new InputStreamReader(System.in, StandardCharsets.US_ASCII));
        for (String round = rounds.readLine(); round != null; round = rounds.readLine()) {
            // The processor time of this thread alone, so that neither the collector nor the compiler of the JVM is in it.
            long start = ManagementFactory.getThreadMXBean().getCurrentThreadCpuTime();
            long units = parse(files);
            long end = ManagementFactory.getThreadMXBean().getCurrentThreadCpuTime();
            System.out.println((end - start) / 1e9 + " " + units);
        }
    }
}
