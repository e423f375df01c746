package dinxobhe.stubs;

import static java.nio.charset.StandardCharsets.UTF_8;

import java.io.IOException;
import java.io.PrintStream;
import java.io.StringWriter;
import java.io.UncheckedIOException;
import java.util.List;
import java.util.Locale;
import java.util.Map;
import java.util.Set;
import java.util.stream.Collectors;
import javax.tools.Diagnostic;
import javax.tools.DiagnosticCollector;
import javax.tools.JavaCompiler;
import javax.tools.JavaCompiler.CompilationTask;
import javax.tools.JavaFileObject;
import javax.tools.StandardJavaFileManager;
import javax.tools.StandardLocation;
import javax.tools.ToolProvider;

/** Writes the declarations of libraries as Java files: {@link Options#USAGE}. */
public final class Stubs {
    public static final int WRITTEN = 0;
    public static final int FAULT = 1;
    public static final int WRONG_WORDS = 2;

    private Stubs() {}

    /** Does what the words ask for, and gives the exit status. */
    public static int run(List<String> words, PrintStream out, PrintStream err) {
        if (words.contains("--help")) {
            out.println(Options.USAGE);
            return WRITTEN;
        }
        try {
            write(Options.of(words), out, err);
            return WRITTEN;
        } catch (WrongWords e) {
            err.println("stubs: " + e.getMessage());
            err.println("usage: stubs OUT [JAR].. [OPTION].. (--help says more)");
            return WRONG_WORDS;
        } catch (InputFault e) {
            err.println("stubs: " + e.getMessage());
            return FAULT;
        } catch (IOException | UncheckedIOException e) {
            err.println("stubs: " + e.getMessage() + " (" + e.getClass().getSimpleName() + ")");
            return FAULT;
        }
    }

    private static void write(Options options, PrintStream out, PrintStream err)
            throws IOException, InputFault {
        JavaCompiler compiler = ToolProvider.getSystemJavaCompiler();
        if (compiler == null) {
            throw new InputFault("this Java has no compiler: run it by the java of a JDK");
        }
        StubFolder folder = StubFolder.of(options.out());
        Libraries libraries = Libraries.of(options.libraries());
        Services services = null;
        if (options.services()) {
            services = Services.of(options.processorPath());
            services.check();
        }
        Set<String> asked = AskedNames.of(options.askers());
        SourceNames sources = SourceNames.of(compiler, options.sources());
        Notes notes = new Notes();
        StubProcessor processor = new StubProcessor(options, libraries, sources, asked, notes);
        String said = read(compiler, options, processor);
        Map<String, String> files = processor.files();
        if (files == null) {
            throw new InputFault("the Java compiler does not read the libraries: " + said);
        }
        String written = folder.write(files);
        if (services != null) {
            services.write();
            out.print(services.configuration());
        }
        notes.print(err);
        err.println("stubs: " + written);
    }

    /** Has the compiler run the processor, over no sources. Gives the errors that it finds. */
    private static String read(JavaCompiler compiler, Options options, StubProcessor processor)
            throws IOException, InputFault {
        DiagnosticCollector<JavaFileObject> said = new DiagnosticCollector<>();
        try (StandardJavaFileManager manager = compiler.getStandardFileManager(said, null, UTF_8)) {
            manager.setLocationFromPaths(StandardLocation.CLASS_PATH, options.libraries());
            manager.setLocationFromPaths(StandardLocation.SOURCE_PATH, List.of()); // jars may have sources
            CompilationTask task = compiler.getTask(new StringWriter(), manager, said,
                options.compilerOptions(), List.of("java.lang.Object"), null);
            task.setProcessors(List.of(processor));
            task.call();
        } catch (IllegalArgumentException e) { // an option that this compiler does not have
            throw new InputFault(e.getMessage());
        }
        return said.getDiagnostics().stream().filter(one -> one.getKind() == Diagnostic.Kind.ERROR)
            .map(one -> one.getMessage(Locale.ENGLISH)).collect(Collectors.joining("; "));
    }
}
