import com.sun.source.util.JavacTask;
import com.sun.source.util.Trees;
import java.io.IOException;
import java.io.PrintStream;
import java.nio.charset.StandardCharsets;
import java.nio.file.Files;
import java.nio.file.Path;
import java.util.ArrayList;
import java.util.Arrays;
import java.util.Comparator;
import java.util.List;
import java.util.Locale;
import java.util.Map;
import java.util.Set;
import java.util.TreeSet;
import java.util.stream.Collectors;
import javax.annotation.processing.AbstractProcessor;
import javax.annotation.processing.RoundEnvironment;
import javax.annotation.processing.SupportedAnnotationTypes;
import javax.lang.model.SourceVersion;
import javax.lang.model.element.AnnotationMirror;
import javax.lang.model.element.AnnotationValue;
import javax.lang.model.element.Element;
import javax.lang.model.element.ElementKind;
import javax.lang.model.element.ExecutableElement;
import javax.lang.model.element.Parameterizable;
import javax.lang.model.element.TypeElement;
import javax.lang.model.element.VariableElement;
import javax.lang.model.type.TypeMirror;
import javax.lang.model.util.Elements;
import javax.lang.model.util.SimpleAnnotationValueVisitor9;
import javax.tools.JavaCompiler;
import javax.tools.StandardJavaFileManager;
import javax.tools.ToolProvider;

/**
 * Has javac read files, and prints what {@code javax.lang.model} says of the annotations and the constants in them, as rows of the table
 * {@code value_cases}: {@code mirrors} of each element with annotations, {@code all_mirrors} of each class that inherits some,
 * {@code values_with_defaults} of each annotation with defaults, {@code constant_of} each field, {@code default_of} each method of an
 * annotation interface, and {@code present_on} each unit. Numbers that the table has not are written as {@code byte(7)},
 * {@code short(7)}, {@code float(1.5)} and {@code double(1.5)}. The first word names a file with the paths of the files that are read, one
 * on each line, and those behind it are options of javac.
 *
 * <p>An annotation that javac has for those of one interface that are written is taken apart.
 *
 * <p>Behind these stand lines of {@link AnnotationFacts}.
 */
final class AnnotationBench {
    /** Prints the rows of the roots. */
    @SupportedAnnotationTypes("*")
    private static final class Asker extends AbstractProcessor {
        private final PrintStream out;
        private Elements elements;
        private ElementWords words;
        private AnnotationFacts facts;

        Asker(PrintStream out) {
            this.out = out;
        }

        @Override
        public SourceVersion getSupportedSourceVersion() {
            return SourceVersion.latest();
        }

        @Override
        public boolean process(Set<? extends TypeElement> annotations, RoundEnvironment round) {
            elements = processingEnv.getElementUtils();
            Trees trees = Trees.instance(processingEnv);
            words = new ElementWords(elements, trees);
            facts = new AnnotationFacts(out, processingEnv.getTypeUtils(), trees, words);
            List<Element> roots = new ArrayList<>(round.getRootElements());
            roots.sort(Comparator.comparing(Element::toString));
            for (Element root : roots) {
                if (root.getKind() == ElementKind.PACKAGE || root instanceof TypeElement) {
                    tellRoot(root);
                }
            }
            return false;
        }

        private void row(String call, String answer) {
            out.println(call + " = " + answer);
        }

        private void tellRoot(Element root) {
            Set<String> present = new TreeSet<>();
            if (root.getKind() == ElementKind.PACKAGE) {
                tell(root, present);
            } else {
                tellAll(root, present);
            }
            row("present_on " + words.element(root), present.isEmpty() ? "[]" : String.join(",", present));
        }

        private void tellAll(Element of, Set<String> present) {
            tell(of, present);
            if (of instanceof Parameterizable) {
                ((Parameterizable) of).getTypeParameters().forEach(each -> tell(each, present));
            }
            if (of instanceof ExecutableElement && !words.isMade(of)) {
                ((ExecutableElement) of).getParameters().forEach(each -> tell(each, present));
            }
            if (of instanceof TypeElement) {
                words.members((TypeElement) of).forEach(each -> tellAll(each, present));
            }
        }

        // ---- an element

        private void tell(Element of, Set<String> present) {
            List<? extends AnnotationMirror> written = of.getAnnotationMirrors();
            if (!written.isEmpty()) {
                facts.tellNames(of, of, facts.annotationTrees(of));
                row("mirrors " + words.element(of), mirrors(facts.apart(of, written)));
            }
            List<? extends AnnotationMirror> all = of.getKind().isClass() ? elements.getAllAnnotationMirrors(of) : written;
            if (all.size() > written.size()) {
                facts.classesAbove(of).forEach(each -> facts.tellNames(of, each, facts.annotationTrees(each)));
                row("all_mirrors " + words.element(of), mirrors(facts.apart(of, facts.inOrder(all, written))));
            }
            facts.apart(of, all).forEach(each -> present.add(((TypeElement) each.getAnnotationType().asElement()).getQualifiedName().toString()));
            if (facts.apart(of, written).size() == written.size()) {
                tellDefaults(of, written);
            }
            if (of.getKind() == ElementKind.FIELD) {
                tellConstant((VariableElement) of);
            }
            if (of.getKind() == ElementKind.METHOD && of.getEnclosingElement().getKind() == ElementKind.ANNOTATION_TYPE) {
                AnnotationValue value = ((ExecutableElement) of).getDefaultValue();
                facts.tellNames(of, of, facts.treeOf(of));
                row("default_of " + words.element(of), value == null ? "none" : value(value));
            }
        }

        private void tellDefaults(Element of, List<? extends AnnotationMirror> written) {
            for (int number = 0; number < written.size(); number++) {
                AnnotationMirror each = written.get(number);
                Map<? extends ExecutableElement, ? extends AnnotationValue> values = elements.getElementValuesWithDefaults(each);
                if (values.size() > each.getElementValues().size()) {
                    values.keySet().forEach(element -> facts.tellNames(of, element, facts.treeOf(element)));
                    row("values_with_defaults " + words.element(of) + " " + number, pairs(values));
                }
            }
        }

        private void tellConstant(VariableElement of) {
            Object constant = of.getConstantValue();
            facts.tellNames(of, of, facts.treeOf(of));
            out.println("# form " + words.element(of) + " " + facts.formOf(of));
            row("constant_of " + words.element(of), constant == null ? "none" : simple(constant));
        }

        // ---- values

        private String mirrors(List<AnnotationMirror> mirrors) {
            return mirrors.stream().map(this::mirror).collect(Collectors.joining(" "));
        }

        private String mirror(AnnotationMirror mirror) {
            Map<? extends ExecutableElement, ? extends AnnotationValue> values = mirror.getElementValues();
            return "@" + words.type(mirror.getAnnotationType()) + "(" + (values.isEmpty() ? "" : pairs(values)) + ")";
        }

        private String pairs(Map<? extends ExecutableElement, ? extends AnnotationValue> values) {
            return values.entrySet().stream().map(each -> each.getKey().getSimpleName() + "=" + value(each.getValue()))
                    .collect(Collectors.joining(","));
        }

        private String value(AnnotationValue value) {
            return value.accept(new SimpleAnnotationValueVisitor9<String, Void>() {
                @Override
                protected String defaultAction(Object simple, Void none) {
                    return simple(simple);
                }

                @Override
                public String visitType(TypeMirror type, Void none) {
                    return "class(" + words.type(type) + ")";
                }

                @Override
                public String visitEnumConstant(VariableElement constant, Void none) {
                    return "constant(" + words.element(constant) + ")";
                }

                @Override
                public String visitAnnotation(AnnotationMirror mirror, Void none) {
                    return mirror(mirror);
                }

                @Override
                public String visitArray(List<? extends AnnotationValue> items, Void none) {
                    return items.stream().map(each -> value(each)).collect(Collectors.joining(",", "{", "}"));
                }
            }, null);
        }

        private static String simple(Object of) {
            if (of instanceof Boolean) {
                return of.toString();
            }
            if (of instanceof String) {
                return "text`" + escaped((String) of) + "`";
            }
            if (of instanceof Character) {
                return "character(" + (int) (Character) of + ")";
            }
            String kind = of.getClass().getSimpleName();
            return (of instanceof Integer ? "int" : kind.toLowerCase(Locale.ROOT)) + "(" + of + ")";
        }

        private static String escaped(String text) {
            StringBuilder escaped = new StringBuilder();
            for (byte each : text.getBytes(StandardCharsets.UTF_8)) {
                if (each < ' ' || each > '~' || each == '%' || each == '`') {
                    escaped.append(String.format("%%%02X", each));
                } else {
                    escaped.append((char) each);
                }
            }
            return escaped.toString();
        }
    }

    public static void main(String[] arguments) throws IOException {
        List<Path> files = new ArrayList<>();
        for (String path : Files.readAllLines(Path.of(arguments[0]))) {
            files.add(Path.of(path));
        }
        List<String> options = new ArrayList<>(List.of("-proc:only", "-implicit:none", "-nowarn", "-Xlint:none", "-Xmaxerrs", "100000"));
        options.addAll(Arrays.asList(arguments).subList(1, arguments.length));
        Javac.Errors errors = new Javac.Errors(true);
        JavaCompiler compiler = ToolProvider.getSystemJavaCompiler();
        try (StandardJavaFileManager manager = Javac.files(); PrintStream out = new PrintStream(System.out, false, StandardCharsets.UTF_8)) {
            JavacTask task = (JavacTask) compiler.getTask(null, manager, errors, options, null, manager.getJavaFileObjectsFromPaths(files));
            task.setProcessors(List.of(new Asker(out)));
            task.call();
            out.println("# errors " + errors.count());
        }
    }
}
