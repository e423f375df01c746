import com.sun.source.tree.BlockTree;
import com.sun.source.tree.ClassTree;
import com.sun.source.tree.CompilationUnitTree;
import com.sun.source.tree.ImportTree;
import com.sun.source.tree.MemberSelectTree;
import com.sun.source.tree.MethodTree;
import com.sun.source.tree.Tree;
import com.sun.source.util.JavacTask;
import com.sun.source.util.SourcePositions;
import com.sun.source.util.Trees;
import java.io.BufferedReader;
import java.io.IOException;
import java.io.InputStreamReader;
import java.io.PrintStream;
import java.nio.charset.StandardCharsets;
import java.nio.file.Files;
import java.nio.file.Path;
import java.util.ArrayList;
import java.util.List;
import java.util.Set;
import java.util.regex.Pattern;
import javax.annotation.processing.AbstractProcessor;
import javax.annotation.processing.RoundEnvironment;
import javax.annotation.processing.SupportedAnnotationTypes;
import javax.lang.model.SourceVersion;
import javax.lang.model.element.Element;
import javax.lang.model.element.ElementKind;
import javax.lang.model.element.TypeElement;
import javax.lang.model.type.TypeMirror;
import javax.tools.StandardJavaFileManager;

/**
 * Has javac attribute the declarations of files of the module java.base. The first word says what is done, the second names
 * the folder below which the files stand, and the third a file with the path of one of them on each line:
 *
 * <ul>
 * <li>{@code strip}: of each file the methods, the constructors and the initializer blocks are overwritten by spaces, but for
 *     annotation interfaces, and so are the static imports of what has a name in lower case, since most of these are imports
 *     of methods; escapes of surrogates are replaced by the escape of an {@code A};
 * <li>{@code said}: for each field the name of the type around it, its own name and its type are printed, and for each type
 *     its name and its supertypes;
 * <li>{@code rounds}: each line of the input is answered by the seconds that javac takes, the number of fields and that of errors.
 * </ul>
 */
final class NameBench {
    // The escape of half a character. The program reads none that stands alone.
    private static final Pattern SURROGATE = Pattern.compile("\\\\u+[dD][89a-fA-F][0-9a-fA-F]{2}");

    /** Asks each field of the round's types, and of all types in them, for its type. */
    @SupportedAnnotationTypes("*")
    private static final class Asker extends AbstractProcessor {
        private final PrintStream out;
        private long fields;
        private long nanos;

        Asker(PrintStream out) {
            this.out = out;
        }

        @Override
        public SourceVersion getSupportedSourceVersion() {
            return SourceVersion.latest();
        }

        @Override
        public boolean process(Set<? extends TypeElement> annotations, RoundEnvironment round) {
            long start = Javac.processorNanos();
            for (Element root : round.getRootElements()) {
                ask(root);
            }
            nanos += Javac.processorNanos() - start;
            return false;
        }

        private void ask(Element of) {
            if (out != null) {
                tellSupertypes((TypeElement) of);
            }
            for (Element each : of.getEnclosedElements()) {
                if (each.getKind() == ElementKind.FIELD) {
                    fields++;
                    TypeMirror type = each.asType();
                    if (out != null) {
                        out.println(((TypeElement) of).getQualifiedName() + " " + each.getSimpleName() + " " + Javac.words(type));
                    }
                } else if (each.getKind().isClass() || each.getKind().isInterface()) {
                    ask(each);
                }
            }
        }

        private void tellSupertypes(TypeElement of) {
            StringBuilder line = new StringBuilder(of.getQualifiedName() + " extends " + Javac.words(of.getSuperclass()));
            for (TypeMirror each : of.getInterfaces()) {
                line.append(' ').append(Javac.words(each));
            }
            out.println(line);
        }
    }

    private static boolean isStripped(Tree tree) {
        if (tree instanceof ImportTree && ((ImportTree) tree).isStatic()) {
            Tree name = ((ImportTree) tree).getQualifiedIdentifier();
            return Character.isLowerCase(((MemberSelectTree) name).getIdentifier().charAt(0));
        }
        return tree instanceof MethodTree || tree instanceof BlockTree;
    }

    private static void strip(Tree tree, CompilationUnitTree unit, SourcePositions places, StringBuilder text) {
        if (tree.getKind() == Tree.Kind.ANNOTATION_TYPE) {
            return;
        }
        if (tree instanceof ClassTree) {
            for (Tree member : ((ClassTree) tree).getMembers()) {
                strip(member, unit, places, text);
            }
        } else if (isStripped(tree)) {
            int end = (int) places.getEndPosition(unit, tree);
            for (int at = (int) places.getStartPosition(unit, tree); at < end; at++) {
                if (text.charAt(at) != '\n') {
                    text.setCharAt(at, ' ');
                }
            }
        }
    }

    private static void stripAll(String folder, List<Path> files) throws IOException {
        try (StandardJavaFileManager manager = Javac.files()) {
            JavacTask task = Javac.task(manager, folder, files, new Javac.Errors(true));
            SourcePositions places = Trees.instance(task).getSourcePositions();
            for (CompilationUnitTree unit : task.parse()) {
                StringBuilder text = new StringBuilder(unit.getSourceFile().getCharContent(true));
                for (Tree tree : unit.getImports()) {
                    strip(tree, unit, places, text);
                }
                for (Tree tree : unit.getTypeDecls()) {
                    strip(tree, unit, places, text);
                }
                String stripped = SURROGATE.matcher(text).replaceAll("\\\\u0041");
                Files.writeString(Path.of(unit.getSourceFile().toUri()), stripped, StandardCharsets.UTF_8);
            }
        }
    }

    // Each time with files of its own, so that nothing is kept but what the JVM keeps.
    private static void attribute(String folder, List<Path> files, PrintStream said) throws IOException {
        Javac.Errors errors = new Javac.Errors(said != null);
        Asker asker = new Asker(said);
        Javac.Entering entering = new Javac.Entering();
        try (StandardJavaFileManager manager = Javac.files()) {
            JavacTask task = Javac.task(manager, folder, files, errors);
            task.setProcessors(List.of(asker));
            task.addTaskListener(entering);
            task.call();
        }
        if (said == null) {
            System.out.println((entering.nanos() + asker.nanos) / 1e9 + " " + asker.fields + " " + errors.count());
        }
    }

    public static void main(String[] words) throws IOException {
        List<Path> files = new ArrayList<>();
        for (String path : Files.readAllLines(Path.of(words[2]))) {
            files.add(Path.of(path));
        }
        if (words[0].equals("strip")) {
            stripAll(words[1], files);
        } else if (words[0].equals("said")) {
            attribute(words[1], files, System.out);
        } else {
            BufferedReader rounds = new BufferedReader(new InputStreamReader(System.in, StandardCharsets.US_ASCII));
            for (String round = rounds.readLine(); round != null; round = rounds.readLine()) {
                attribute(words[1], files, null);
            }
        }
    }
}
