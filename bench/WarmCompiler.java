import com.sun.management.OperatingSystemMXBean;
import java.io.BufferedReader;
import java.io.InputStreamReader;
import java.lang.management.ManagementFactory;
import java.nio.charset.StandardCharsets;
import java.nio.file.Path;
import java.util.List;
import java.util.Locale;
import javax.tools.JavaCompiler;
import javax.tools.StandardJavaFileManager;
import javax.tools.ToolProvider;

/**
 * Runs the JDK's compiler in this JVM with the two processors, once for each line of the input. The words are those of a call of {@code javac}, in
 * which behind {@code --} the files stand.
 *
 * <p>Each run has a compiler task, a file manager and processors of its own. It is answered by a line with the seconds that it took, by the clock
 * and by the processors, those of the compiler of this JVM and of its garbage collector included.
 */
final class WarmCompiler {
    private static final OperatingSystemMXBean SYSTEM = (OperatingSystemMXBean) ManagementFactory.getOperatingSystemMXBean();

    private static boolean compile(JavaCompiler compiler, List<String> options, List<String> files) throws Exception {
        try (StandardJavaFileManager manager = compiler.getStandardFileManager(null, Locale.ROOT, StandardCharsets.UTF_8)) {
            JavaCompiler.CompilationTask task = compiler.getTask(null, manager, null, options, null,
                    manager.getJavaFileObjectsFromPaths(files.stream().map(Path::of).toList()));
            task.setProcessors(List.of(new BuilderProcessor(), new RegistryProcessor()));
            return task.call();
        }
    }

    public static void main(String[] words) throws Exception {
        JavaCompiler compiler = ToolProvider.getSystemJavaCompiler();
        List<String> all = List.of(words);
        int end = all.indexOf("--");
        BufferedReader input = new BufferedReader(new InputStreamReader(System.in, StandardCharsets.UTF_8));
        while (input.readLine() != null) {
            long used = SYSTEM.getProcessCpuTime();
            long start = System.nanoTime();
            boolean isDone = compile(compiler, all.subList(0, end), all.subList(end + 1, all.size()));
            long taken = System.nanoTime() - start;
            System.out.println(isDone + " " + taken / 1e9 + " " + (SYSTEM.getProcessCpuTime() - used) / 1e9);
        }
    }
}
