import java.io.File;
import java.io.IOException;
import java.nio.charset.StandardCharsets;
import java.nio.file.Files;
import java.nio.file.Path;
import java.nio.file.Paths;
import java.util.ArrayList;
import java.util.LinkedHashMap;
import java.util.List;
import java.util.Map;
import java.util.Set;
import java.util.TreeSet;
import java.util.stream.Collectors;
import java.util.stream.Stream;
import javax.tools.Diagnostic;
import javax.tools.DiagnosticCollector;
import javax.tools.JavaCompiler;
import javax.tools.JavaFileObject;
import javax.tools.StandardJavaFileManager;
import javax.tools.ToolProvider;

/**
 * Compares the declarations of class files with those of their stubs, as the JDK has both in javax.lang.model, and
 * with those that the host has of the stubs.
 *
 * <pre>
 *     SameDeclarations module NAME STUBS [FILE]    of the exported packages of a module of the JDK
 *     SameDeclarations path PATH STUBS [FILE]      of the jars of a class path
 * </pre>
 *
 * Each public type that the module exports, and each public or protected member of a type of the stubs, has to have
 * the same declaration in the stubs: annotations, modifiers, type parameters with bounds, types, names of parameters,
 * constants, defaults and exceptions. What the stubs declare has to be declared so by the class files, but for private
 * constructors without parameters. Members that both have come in the same order. What the stubs name of the module or
 * the jars is among them.
 *
 * <p>Not compared is whether a type is sealed, and whether an enum is abstract: class files say that of an enum with
 * abstract methods, and no Java text can. What an enum has by itself may come elsewhere.
 *
 * <p>FILE is what HostDeclarations wrote as a processor of the host, whose sources are the stubs. The host has no
 * numbers that are infinite or none.
 *
 * <p>Each difference is printed, and then three lines: 'N declarations, M differences'; 'types' and the names of the
 * stubs; 'annotations' and the names of those that the class files have on what the stubs declare.
 */
public final class SameDeclarations {
    /** What stands behind a field whose constant is infinite or no number. */
    private static final String NO_NUMBER = " = (Float|Double) -?[A-Z]\\w*$";

    private SameDeclarations() {}

    public static void main(String[] words) throws IOException {
        boolean isModule = words[0].equals("module");
        String module = isModule ? words[1] : "";
        Path stubs = Paths.get(words[2]);
        List<File> files = filesBelow(stubs);
        Set<String> names = new TreeSet<>();
        for (File file : files) {
            String name = stubs.relativize(file.toPath()).toString().replace(File.separatorChar, '.');
            names.add(name.substring(0, name.length() - ".java".length()));
        }
        Declarations classes = new Declarations(names, module, isModule);
        run(classes, List.of(), isModule ? List.of("--add-modules", module) : List.of("-classpath", words[1]));
        Declarations sources = new Declarations(names, module, false);
        run(sources, files, isModule ? List.of("--patch-module", module + "=" + stubs) : List.of());

        List<String> differences = new ArrayList<>();
        compareNames(classes, sources, differences);
        compareTexts(classes.texts, sources.texts, differences);
        compareOrder(classes.members, sources.members, differences);
        if (words.length > 3) {
            compareWithHost(classes, Paths.get(words[3]), differences);
        }
        differences.forEach(System.out::println);
        System.out.println(sources.texts.size() + " declarations, " + differences.size() + " differences");
        System.out.println("types " + String.join(" ", names));
        System.out.println("annotations " + String.join(" ", classes.annotationsOf(sources.texts.keySet())));
        System.exit(differences.isEmpty() ? 0 : 1);
    }

    private static List<File> filesBelow(Path folder) throws IOException {
        try (Stream<Path> walk = Files.walk(folder)) {
            return walk.filter(Files::isRegularFile).sorted().map(Path::toFile).collect(Collectors.toList());
        }
    }

    /** Has javac read class files, or these sources, and run the processor over them. */
    private static void run(Declarations processor, List<File> sources, List<String> more) throws IOException {
        JavaCompiler compiler = ToolProvider.getSystemJavaCompiler();
        DiagnosticCollector<JavaFileObject> said = new DiagnosticCollector<>();
        // An error does not keep the processor from being run: that records are written as classes is one.
        List<String> options = new ArrayList<>(List.of("-proc:only", "-Xlint:none", "-XDshould-stop.ifError=FLOW"));
        options.addAll(more);
        List<String> classes = sources.isEmpty() ? List.of("java.lang.Object") : null;
        try (StandardJavaFileManager manager =
                compiler.getStandardFileManager(said, null, StandardCharsets.UTF_8)) {
            JavaCompiler.CompilationTask task = compiler.getTask(null, manager, said, options, classes,
                manager.getJavaFileObjectsFromFiles(sources));
            task.setProcessors(List.of(processor));
            task.call();
        }
        for (Diagnostic<?> one : said.getDiagnostics()) {
            boolean isRecord = "compiler.err.invalid.supertype.record".equals(one.getCode());
            if (one.getKind() == Diagnostic.Kind.ERROR && !isRecord) {
                System.out.println(one);
                System.exit(1);
            }
        }
    }

    private static void compareNames(Declarations classes, Declarations sources, List<String> differences) {
        Set<String> written = sources.texts.keySet();
        for (String name : sources.named) {
            if (!written.contains(name)) {
                differences.add("named, and not in the stubs: " + name);
            }
        }
        classes.visible.forEach((key, around) -> {
            if (!written.contains(key) && (around.isEmpty() || written.contains(around))) {
                differences.add("not in the stubs: " + key + ": " + classes.texts.get(key));
            }
        });
    }

    private static void compareWithHost(Declarations classes, Path file, List<String> differences)
            throws IOException {
        Map<String, String> texts = new LinkedHashMap<>();
        Map<String, List<String>> members = new LinkedHashMap<>();
        HostDeclarations.read(file, texts, members);
        Map<String, String> declared = new LinkedHashMap<>();
        classes.texts.forEach((key, text) -> declared.put(key, text.replaceFirst(NO_NUMBER, "")));
        compareTexts(declared, texts, differences);
        compareOrder(classes.members, members, differences);
    }

    private static void compareTexts(Map<String, String> classes, Map<String, String> sources,
            List<String> differences) {
        sources.forEach((key, text) -> {
            String declared = classes.get(key);
            boolean isAdded = declared == null && text.equals("[private] CONSTRUCTOR()");
            if (!isAdded && !text.equals(declared)) {
                differences.add(both(key, declared, text));
            }
        });
    }

    private static void compareOrder(Map<String, List<String>> classes, Map<String, List<String>> sources,
            List<String> differences) {
        sources.forEach((key, written) -> {
            List<String> declared = new ArrayList<>(classes.getOrDefault(key, List.of()));
            List<String> common = new ArrayList<>(written);
            declared.retainAll(written);
            common.retainAll(declared);
            if (!common.equals(declared)) {
                differences.add(both("the order of " + key, declared, common));
            }
        });
    }

    private static String both(String what, Object declared, Object written) {
        return what + "\n    classes  " + declared + "\n    stubs    " + written;
    }
}
