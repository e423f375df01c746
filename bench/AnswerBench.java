import com.sun.source.util.JavacTask;
import com.sun.source.util.Trees;
import java.io.BufferedReader;
import java.io.IOException;
import java.io.InputStreamReader;
import java.io.UncheckedIOException;
import java.nio.charset.StandardCharsets;
import java.nio.file.Files;
import java.nio.file.Path;
import java.util.ArrayList;
import java.util.Comparator;
import java.util.LinkedHashMap;
import java.util.List;
import java.util.Map;
import java.util.Set;
import java.util.function.LongSupplier;
import javax.annotation.processing.AbstractProcessor;
import javax.annotation.processing.RoundEnvironment;
import javax.annotation.processing.SupportedAnnotationTypes;
import javax.lang.model.SourceVersion;
import javax.lang.model.element.AnnotationMirror;
import javax.lang.model.element.AnnotationValue;
import javax.lang.model.element.Element;
import javax.lang.model.element.ExecutableElement;
import javax.lang.model.element.QualifiedNameable;
import javax.lang.model.element.TypeElement;
import javax.lang.model.type.ArrayType;
import javax.lang.model.type.DeclaredType;
import javax.lang.model.type.ExecutableType;
import javax.lang.model.type.TypeMirror;
import javax.lang.model.type.WildcardType;
import javax.lang.model.util.ElementFilter;
import javax.lang.model.util.Elements;
import javax.lang.model.util.Types;
import javax.tools.StandardJavaFileManager;

/**
 * Has a processor of the JDK's compiler ask about each element that files of the module java.base declare in a package, again and again. The
 * words are the folder below which the files stand, a file with the paths of those of the package, one on each line, and the package.
 *
 * <p>First each question is printed, as a call of the table {@code answer_cases}, and behind them an empty line. Then each line of the input has
 * the name of a question, {@code calls} or {@code read}, and a number. It is answered by the seconds in which all questions of that name are asked
 * so many times, how many of them there are, and a sum over their answers. With {@code read} each answer is gone through, down to the elements in
 * its types and values; without it the lists alone.
 */
final class AnswerBench {
    // Of how many other types a type is asked, and how far these stand from each other.
    private static final int OTHERS = 10;
    private static final int APART = 37;

    private static long read(TypeMirror of) {
        switch (of.getKind()) {
            case ARRAY:
                return 1 + read(((ArrayType) of).getComponentType());
            case DECLARED:
                return ((DeclaredType) of).asElement().getSimpleName().length() + readAll(((DeclaredType) of).getTypeArguments());
            case WILDCARD:
                TypeMirror above = ((WildcardType) of).getExtendsBound();
                TypeMirror below = ((WildcardType) of).getSuperBound();
                return above != null ? read(above) : below != null ? read(below) : 1;
            case EXECUTABLE:
                ExecutableType method = (ExecutableType) of;
                return readAll(method.getTypeVariables()) + readAll(method.getParameterTypes()) + read(method.getReturnType()) + readAll(method.getThrownTypes());
            default:
                return of.getKind().ordinal();
        }
    }

    private static long readAll(List<? extends TypeMirror> types) {
        long sum = types.size();
        for (TypeMirror each : types) {
            sum += read(each);
        }
        return sum;
    }

    private static long names(Iterable<? extends Element> elements) {
        long sum = 0;
        for (Element each : elements) {
            sum += each.getSimpleName().length();
        }
        return sum;
    }

    private static long count(Iterable<?> items) {
        long count = 0;
        for (Object each : items) {
            count += each == null ? 0 : 1;
        }
        return count;
    }

    private static long annotations(List<? extends AnnotationMirror> mirrors) {
        long sum = mirrors.size();
        for (AnnotationMirror each : mirrors) {
            sum += read(each.getAnnotationType());
            for (Map.Entry<? extends ExecutableElement, ? extends AnnotationValue> value : each.getElementValues().entrySet()) {
                sum += value.getKey().getSimpleName().length() + value.getValue().getValue().hashCode();
            }
        }
        return sum;
    }

    private static long info(Element of) {
        long sum = of.getKind().ordinal() + of.getModifiers().size() + of.getSimpleName().length();
        if (of instanceof QualifiedNameable) {
            sum += ((QualifiedNameable) of).getQualifiedName().length();
        }
        return of instanceof ExecutableElement && ((ExecutableElement) of).isVarArgs() ? sum + 1 : sum;
    }

    /** Makes the questions, and asks them as the input says. */
    @SupportedAnnotationTypes("*")
    private static final class Asker extends AbstractProcessor {
        private final String name;
        private final BufferedReader input;
        private final Map<String, List<LongSupplier>> questions = new LinkedHashMap<>();
        private ReplyWords words;
        private Elements elements;
        private Types types;

        Asker(String name, BufferedReader input) {
            this.name = name;
            this.input = input;
        }

        @Override
        public SourceVersion getSupportedSourceVersion() {
            return SourceVersion.latest();
        }

        @Override
        public boolean process(Set<? extends TypeElement> annotations, RoundEnvironment round) {
            if (round.processingOver()) {
                return false;
            }
            elements = processingEnv.getElementUtils();
            types = processingEnv.getTypeUtils();
            words = new ReplyWords(new ElementWords(elements, Trees.instance(processingEnv)));
            List<TypeElement> all = new ArrayList<>();
            ElementFilter.typesIn(round.getRootElements()).stream().filter(each -> elements.getPackageOf(each).getQualifiedName().contentEquals(name))
                    .sorted(Comparator.comparing(words::element)).forEach(each -> gather(each, all));
            all.forEach(this::askType);
            askSubtypes(all);
            System.out.println();
            try {
                measure();
            } catch (IOException error) {
                throw new UncheckedIOException(error);
            }
            return false;
        }

        private static void gather(TypeElement of, List<TypeElement> all) {
            all.add(of);
            ElementFilter.typesIn(of.getEnclosedElements()).forEach(each -> gather(each, all));
        }

        private void ask(String row, String arguments, LongSupplier call, LongSupplier read) {
            System.out.println("collect " + row + " " + arguments);
            questions.computeIfAbsent(row + " calls", key -> new ArrayList<>()).add(call);
            questions.computeIfAbsent(row + " read", key -> new ArrayList<>()).add(read);
        }

        private void askElement(Element of) {
            String at = words.element(of);
            ask("Info", at, () -> info(of), () -> info(of));
            ask("TypeOf", at, () -> of.asType().getKind().ordinal(), () -> AnswerBench.read(of.asType()));
            ask("Annotations", at, () -> of.getAnnotationMirrors().size(), () -> annotations(of.getAnnotationMirrors()));
        }

        private void askType(TypeElement of) {
            askElement(of);
            String at = words.element(of);
            ask("Enclosed", at, () -> count(of.getEnclosedElements()), () -> names(of.getEnclosedElements()));
            ask("AllMembers", at, () -> count(elements.getAllMembers(of)), () -> names(elements.getAllMembers(of)));
            for (Element each : of.getEnclosedElements()) {
                if (!(each instanceof TypeElement)) {
                    askElement(each);
                }
                if (each instanceof ExecutableElement) {
                    ((ExecutableElement) each).getParameters().forEach(this::askElement);
                }
            }
        }

        private void askSubtype(TypeMirror one, TypeMirror other) {
            LongSupplier call = () -> types.isSubtype(one, other) ? 1 : 0;
            ask("Subtype", words.mirror(one) + " " + words.mirror(other), call, call);
        }

        private void askSubtypes(List<TypeElement> all) {
            for (int number = 0; number < all.size(); number++) {
                TypeMirror of = all.get(number).asType();
                for (TypeMirror above : types.directSupertypes(of)) {
                    askSubtype(of, above);
                    askSubtype(of, types.erasure(above));
                    types.directSupertypes(above).forEach(each -> askSubtype(of, each));
                }
                for (int turn = 1; turn <= OTHERS; turn++) {
                    TypeMirror other = all.get((number + turn * APART) % all.size()).asType();
                    askSubtype(of, turn % 2 == 0 ? types.erasure(other) : other);
                }
            }
        }

        private void measure() throws IOException {
            for (String line = input.readLine(); line != null; line = input.readLine()) {
                String[] asked = line.split(" ");
                List<LongSupplier> all = questions.get(asked[0] + " " + asked[1]);
                int rounds = Integer.parseInt(asked[2]);
                long sum = 0;
                long start = Javac.processorNanos();
                for (int round = 0; round < rounds; round++) {
                    for (LongSupplier each : all) {
                        sum += each.getAsLong();
                    }
                }
                System.out.println((Javac.processorNanos() - start) / 1e9 + " " + all.size() + " " + sum);
            }
        }
    }

    public static void main(String[] arguments) throws IOException {
        List<Path> files = new ArrayList<>();
        for (String path : Files.readAllLines(Path.of(arguments[1]))) {
            files.add(Path.of(path));
        }
        BufferedReader input = new BufferedReader(new InputStreamReader(System.in, StandardCharsets.US_ASCII));
        try (StandardJavaFileManager manager = Javac.files()) {
            JavacTask task = Javac.task(manager, arguments[0], files, new Javac.Errors(false));
            task.setProcessors(List.of(new Asker(arguments[2], input)));
            task.call();
        }
    }
}
