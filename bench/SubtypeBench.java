import com.sun.source.util.JavacTask;
import java.io.BufferedReader;
import java.io.IOException;
import java.io.InputStreamReader;
import java.io.UncheckedIOException;
import java.nio.charset.StandardCharsets;
import java.nio.file.Files;
import java.nio.file.Path;
import java.util.ArrayList;
import java.util.Comparator;
import java.util.List;
import java.util.Set;
import javax.annotation.processing.AbstractProcessor;
import javax.annotation.processing.RoundEnvironment;
import javax.annotation.processing.SupportedAnnotationTypes;
import javax.lang.model.SourceVersion;
import javax.lang.model.element.Element;
import javax.lang.model.element.ElementKind;
import javax.lang.model.element.TypeElement;
import javax.lang.model.type.DeclaredType;
import javax.lang.model.type.TypeKind;
import javax.lang.model.type.TypeMirror;
import javax.lang.model.util.ElementFilter;
import javax.lang.model.util.Types;
import javax.tools.StandardJavaFileManager;

/**
 * Has a processor of the JDK's compiler ask {@code Types} which types are subtypes of others, of what files of the module java.base
 * declare. The first word says what is done, the second is the step of the measured program with the same questions, {@code declared}
 * or {@code fields}, the third names the folder below which the files stand, and the fourth a file with the path of one of them on each line:
 *
 * <ul>
 * <li>{@code said}: each question is printed with its answer;
 * <li>{@code rounds}: each line of the input has a number, and is answered by the seconds in which one processor asks all of its
 *     questions so many times, how many questions it has, and how many of them are answered by yes;
 * <li>{@code fresh}: each line of the input is answered by the seconds that a new compiler takes to enter the declarations, those that
 *     its processor takes to make the questions, and to ask each once, how many questions there are, and the number of errors.
 * </ul>
 */
final class SubtypeBench {
    // Of how many other types a type is asked, and how far these stand from each other, as in the measured program.
    private static final int OTHERS = 10;
    private static final int APART = 37;

    private static final class Question {
        private final TypeMirror of;
        private final TypeMirror above;

        Question(TypeMirror of, TypeMirror above) {
            this.of = of;
            this.above = above;
        }
    }

    /** The questions on the types of a round. */
    private static final class Questions {
        private final Types types;
        private final List<Question> all = new ArrayList<>();

        Questions(Types types) {
            this.types = types;
        }

        private void ask(TypeMirror of, TypeMirror above) {
            all.add(new Question(of, above));
        }

        // The supertypes that a type reaches, each once.
        private List<TypeMirror> supertypes(TypeMirror of) {
            List<TypeMirror> reached = new ArrayList<>(types.directSupertypes(of));
            for (int at = 0; at < reached.size(); at++) {
                for (TypeMirror each : types.directSupertypes(reached.get(at))) {
                    if (reached.stream().noneMatch(one -> types.isSameType(one, each))) {
                        reached.add(each);
                    }
                }
            }
            return reached;
        }

        // A class type with each argument as the bound of a wildcard.
        private TypeMirror loosened(DeclaredType of) {
            TypeMirror[] bounds = of.getTypeArguments().stream().map(each -> types.getWildcardType(each, null)).toArray(TypeMirror[]::new);
            TypeElement element = (TypeElement) of.asElement();
            TypeMirror around = of.getEnclosingType();
            if (around.getKind() == TypeKind.DECLARED && !((DeclaredType) around).getTypeArguments().isEmpty()) {
                return types.getDeclaredType((DeclaredType) around, element, bounds);
            }
            return types.getDeclaredType(element, bounds);
        }

        private void askSupertypes(TypeMirror of) {
            for (TypeMirror above : supertypes(of)) {
                ask(of, above);
                if (above.getKind() == TypeKind.DECLARED && !((DeclaredType) above).getTypeArguments().isEmpty()) {
                    ask(of, types.erasure(above));
                    ask(of, loosened((DeclaredType) above));
                }
            }
        }

        private void askTypes(List<TypeElement> elements) {
            for (int number = 0; number < elements.size(); number++) {
                TypeMirror of = elements.get(number).asType();
                askSupertypes(of);
                for (int turn = 1; turn <= OTHERS; turn++) {
                    TypeMirror other = elements.get((number + turn * APART) % elements.size()).asType();
                    ask(of, turn % 2 == 0 ? types.erasure(other) : other);
                }
            }
        }

        private void askFields(List<Element> fields) {
            for (int number = 0; number + 1 < fields.size(); number += 2) {
                ask(fields.get(number).asType(), fields.get(number + 1).asType());
            }
        }

        private long round() {
            long held = 0;
            for (Question each : all) {
                if (types.isSubtype(each.of, each.above)) {
                    held++;
                }
            }
            return held;
        }

        private void say() {
            for (Question each : all) {
                String answer = types.isSubtype(each.of, each.above) ? "yes" : "no";
                System.out.println(Javac.words(each.of) + "\t" + Javac.words(each.above) + "\t" + answer);
            }
        }
    }

    /** Makes the questions of a step on the round's types, and does with them what the first word says. */
    @SupportedAnnotationTypes("*")
    private static final class Asker extends AbstractProcessor {
        private final String mode;
        private final String step;
        private final BufferedReader input;
        private long making;
        private long asking;
        private long questions;

        Asker(String mode, String step, BufferedReader input) {
            this.mode = mode;
            this.step = step;
            this.input = input;
        }

        @Override
        public SourceVersion getSupportedSourceVersion() {
            return SourceVersion.latest();
        }

        @Override
        public boolean process(Set<? extends TypeElement> annotations, RoundEnvironment round) {
            if (round.processingOver()) {
                return false;
            }
            long start = Javac.processorNanos();
            Questions asked = questions(ElementFilter.typesIn(round.getRootElements()));
            questions = asked.all.size();
            long made = Javac.processorNanos();
            making = made - start;
            if (mode.equals("said")) {
                asked.say();
            } else if (mode.equals("rounds")) {
                measure(asked);
            } else {
                asked.round();
            }
            asking = Javac.processorNanos() - made;
            return false;
        }

        private Questions questions(Set<TypeElement> roots) {
            List<TypeElement> sorted = new ArrayList<>(roots);
            sorted.sort(Comparator.comparing(each -> each.getQualifiedName().toString()));
            List<TypeElement> elements = new ArrayList<>();
            List<Element> fields = new ArrayList<>();
            for (TypeElement root : sorted) {
                gather(root, elements, fields);
            }
            Questions asked = new Questions(processingEnv.getTypeUtils());
            if (step.equals("declared")) {
                asked.askTypes(elements);
            } else {
                asked.askFields(fields);
            }
            return asked;
        }

        private static void gather(TypeElement of, List<TypeElement> elements, List<Element> fields) {
            elements.add(of);
            for (Element each : of.getEnclosedElements()) {
                if (each.getKind() == ElementKind.FIELD) {
                    fields.add(each);
                } else if (each.getKind().isClass() || each.getKind().isInterface()) {
                    gather((TypeElement) each, elements, fields);
                }
            }
        }

        private void measure(Questions asked) {
            try {
                for (String line = input.readLine(); line != null; line = input.readLine()) {
                    int rounds = Integer.parseInt(line);
                    long held = 0;
                    long start = Javac.processorNanos();
                    for (int round = 0; round < rounds; round++) {
                        held = asked.round();
                    }
                    double seconds = (Javac.processorNanos() - start) / 1e9;
                    System.out.println(seconds + " " + questions + " " + held);
                }
            } catch (IOException error) {
                throw new UncheckedIOException(error);
            }
        }
    }

    // Each time with files of its own, so that nothing is kept but what the JVM keeps.
    private static void run(String[] words, List<Path> files, BufferedReader input) throws IOException {
        Javac.Errors errors = new Javac.Errors(words[0].equals("said"));
        Asker asker = new Asker(words[0], words[1], input);
        Javac.Entering entering = new Javac.Entering();
        try (StandardJavaFileManager manager = Javac.files()) {
            JavacTask task = Javac.task(manager, words[2], files, errors);
            task.setProcessors(List.of(asker));
            task.addTaskListener(entering);
            task.call();
        }
        if (words[0].equals("fresh")) {
            System.out.println(entering.nanos() / 1e9 + " " + asker.making / 1e9 + " " + asker.asking / 1e9 + " " + asker.questions + " " + errors.count());
        }
    }

    public static void main(String[] words) throws IOException {
        List<Path> files = new ArrayList<>();
        for (String path : Files.readAllLines(Path.of(words[3]))) {
            files.add(Path.of(path));
        }
        BufferedReader input = new BufferedReader(new InputStreamReader(System.in, StandardCharsets.US_ASCII));
        if (words[0].equals("fresh")) {
            for (String line = input.readLine(); line != null; line = input.readLine()) {
                run(words, files, input);
            }
        } else {
            run(words, files, input);
        }
    }
}
