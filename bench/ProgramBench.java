import com.sun.source.util.JavacTask;
import com.sun.source.util.Trees;
import java.io.BufferedReader;
import java.io.IOException;
import java.io.InputStreamReader;
import java.nio.charset.StandardCharsets;
import java.nio.file.Files;
import java.nio.file.Path;
import java.util.ArrayList;
import java.util.LinkedHashSet;
import java.util.List;
import java.util.Locale;
import java.util.Set;
import java.util.stream.Collectors;
import javax.annotation.processing.AbstractProcessor;
import javax.annotation.processing.RoundEnvironment;
import javax.annotation.processing.SupportedAnnotationTypes;
import javax.lang.model.SourceVersion;
import javax.lang.model.element.Element;
import javax.lang.model.element.ElementKind;
import javax.lang.model.element.ExecutableElement;
import javax.lang.model.element.Modifier;
import javax.lang.model.element.TypeElement;
import javax.lang.model.element.VariableElement;
import javax.lang.model.type.ArrayType;
import javax.lang.model.type.DeclaredType;
import javax.lang.model.type.TypeKind;
import javax.lang.model.type.TypeMirror;
import javax.lang.model.type.TypeVariable;
import javax.lang.model.type.WildcardType;
import javax.lang.model.util.ElementFilter;
import javax.lang.model.util.Elements;
import javax.lang.model.util.Types;
import javax.tools.JavaCompiler;
import javax.tools.StandardJavaFileManager;
import javax.tools.ToolProvider;

/**
 * Has javac read programs of several files. Each line of the input names a file with the paths of a program's files, one on each line.
 * The first word says what is done:
 *
 * <ul>
 * <li>{@code legal}: the line is answered by the number of errors, and the first of these;
 * <li>{@code rows}: it is answered by questions on the types of the program with the answers of {@code javax.lang.model}, as rows of
 *     the table {@code type_cases}, and an empty line behind them.
 * </ul>
 *
 * <p>What would show a difference between the definitions and javac that docs/DECISIONS.md tells is not asked:
 *
 * <ul>
 * <li>the members of a type that inherits methods of one name, with as many parameters, from a class and an interface, or from two
 *     interfaces: of these the definition keeps the first one, where it overrides the other, and javac both, or the one further down;
 * <li>the members of a type above which an interface has a static method: javac does not inherit it;
 * <li>the members of a type that inherits two fields of one name from types neither of which is above the other: javac keeps both;
 * <li>whether a private method overrides another one, and whether a method overrides one of a type below;
 * <li>arrays, and arguments that are wildcards in both types, in questions on subtypes.
 * </ul>
 *
 * <p>Nor is it asked for the direct supertypes of an interface with interfaces, of which javac says that {@code Object} is one too (by JLS
 * 4.10.2 it is not). From the members those of {@code Object} are left out, since the stub has none, and what is hidden: javac lists it, and
 * its {@code hides} says so. The programs have no inner classes, and so no types in an enclosing type with arguments.
 */
final class ProgramBench {
    // Of how many other types a type is asked, and how far these stand from each other.
    private static final int OTHERS = 3;
    private static final int APART = 2;

    private static ElementWords words;

    private static String element(Element of) {
        return words.element(of);
    }

    private static String several(List<? extends TypeMirror> types) {
        return types.stream().map(words::type).collect(Collectors.joining(","));
    }

    // ---- types in calls

    private static String call(TypeMirror type) {
        switch (type.getKind()) {
            case ARRAY:
                return "[]/" + call(((ArrayType) type).getComponentType());
            case DECLARED:
                List<? extends TypeMirror> arguments = ((DeclaredType) type).getTypeArguments();
                StringBuilder text = new StringBuilder(element(((DeclaredType) type).asElement()));
                if (!arguments.isEmpty()) {
                    text.append('<').append(arguments.size());
                }
                for (TypeMirror each : arguments) {
                    text.append('/').append(call(each));
                }
                return text.toString();
            case TYPEVAR:
                return "variable=" + element(((TypeVariable) type).asElement());
            case WILDCARD:
                TypeMirror below = ((WildcardType) type).getSuperBound();
                TypeMirror above = ((WildcardType) type).getExtendsBound();
                return below != null ? "?super/" + call(below) : above != null ? "?extends/" + call(above) : "?";
            default:
                return type.getKind().name().toLowerCase(Locale.ROOT);
        }
    }

    /** Prints the rows of a program. */
    @SupportedAnnotationTypes("*")
    private static final class Asker extends AbstractProcessor {
        private Types types;
        private Elements elements;

        @Override
        public SourceVersion getSupportedSourceVersion() {
            return SourceVersion.latest();
        }

        @Override
        public boolean process(Set<? extends TypeElement> annotations, RoundEnvironment round) {
            if (round.processingOver()) {
                return false;
            }
            types = processingEnv.getTypeUtils();
            elements = processingEnv.getElementUtils();
            words = new ElementWords(elements, Trees.instance(processingEnv));
            List<TypeElement> all = new ArrayList<>();
            for (TypeElement root : ElementFilter.typesIn(round.getRootElements())) {
                gather(root, all);
            }
            for (TypeElement each : all) {
                askMembers(each);
            }
            for (int number = 0; number < all.size(); number++) {
                askSupertypes(all.get(number), all, number);
            }
            for (TypeElement each : all) {
                askOverriding(each);
            }
            return false;
        }

        private static void gather(TypeElement of, List<TypeElement> all) {
            all.add(of);
            for (TypeElement each : ElementFilter.typesIn(of.getEnclosedElements())) {
                gather(each, all);
            }
        }

        private static void row(String call, String answer) {
            System.out.println(call + " = " + answer);
        }

        private static void truth(String call, boolean answer) {
            row(call, answer ? "yes" : "no");
        }

        // ---- what is written, and members

        private void askMembers(TypeElement of) {
            for (Element each : of.getEnclosedElements()) {
                if (!(each instanceof TypeElement) && !words.isMade(each)) {
                    row("type " + element(each), words.type(each.asType()));
                }
            }
            if (of.getKind().isClass() || of.getInterfaces().isEmpty()) {
                row("direct " + call(of.asType()), answers(types.directSupertypes(of.asType())));
            }
            List<Element> members = allMembers(of);
            if (!isDifferent(of, members)) {
                String list = members.stream().map(words::element).collect(Collectors.joining(","));
                row("members " + element(of), list.isEmpty() ? "[]" : list);
            }
        }

        private static String answers(List<? extends TypeMirror> list) {
            return list.isEmpty() ? "[]" : several(list);
        }

        // What javac lists and does not call hidden, in the order of the definition: its own, then what is of the superclass, then what is of each
        // interface.
        private List<Element> allMembers(TypeElement of) {
            Set<Element> order = new LinkedHashSet<>();
            add(of, order);
            List<? extends Element> listed = elements.getAllMembers(of);
            return order.stream().filter(listed::contains).filter(each -> listed.stream().noneMatch(other -> elements.hides(other, each)))
                    .collect(Collectors.toList());
        }

        private void add(TypeElement of, Set<Element> order) {
            if (of.getQualifiedName().contentEquals("java.lang.Object")) {
                return;
            }
            order.addAll(words.members(of));
            for (TypeElement above : headers(of)) {
                add(above, order);
            }
        }

        private static List<TypeElement> headers(TypeElement of) {
            List<TypeMirror> above = new ArrayList<>();
            above.add(of.getSuperclass());
            above.addAll(of.getInterfaces());
            return above.stream().filter(each -> each.getKind() == TypeKind.DECLARED)
                    .map(each -> (TypeElement) ((DeclaredType) each).asElement()).collect(Collectors.toList());
        }

        private boolean isDifferent(TypeElement of, List<Element> members) {
            Set<Element> every = new LinkedHashSet<>();
            for (TypeElement above : headers(of)) {
                add(above, every);
            }
            for (Element each : every) {
                if (each.getKind() == ElementKind.METHOD && each.getEnclosingElement().getKind().isInterface()) {
                    if (each.getModifiers().contains(Modifier.STATIC)) {
                        return true;
                    }
                }
            }
            Set<String> fields = new LinkedHashSet<>();
            for (VariableElement each : ElementFilter.fieldsIn(members)) {
                if (!fields.add(each.getSimpleName().toString())) {
                    return true;
                }
            }
            every.addAll(members);
            List<ExecutableElement> methods = ElementFilter.methodsIn(members);
            for (ExecutableElement one : methods) {
                for (ExecutableElement other : ElementFilter.methodsIn(every)) {
                    boolean isInterface = other.getEnclosingElement().getKind().isInterface();
                    boolean isBeside = methods.contains(other) || one.getEnclosingElement().getKind().isInterface();
                    if (one != other && isInterface && isBeside && isAlike(one, other)) {
                        return true;
                    }
                }
            }
            return false;
        }

        private static boolean isAlike(ExecutableElement one, ExecutableElement other) {
            return one.getSimpleName().equals(other.getSimpleName()) && one.getParameters().size() == other.getParameters().size()
                    && !one.getEnclosingElement().equals(other.getEnclosingElement());
        }

        // ---- subtypes

        private List<TypeMirror> reached(TypeMirror of) {
            List<TypeMirror> reached = new ArrayList<>(types.directSupertypes(of));
            for (int at = 0; at < reached.size(); at++) {
                for (TypeMirror each : types.directSupertypes(reached.get(at))) {
                    if (reached.stream().noneMatch(one -> types.isSameType(one, each))) {
                        reached.add(each);
                    }
                }
            }
            return reached;
        }

        private TypeMirror loosened(DeclaredType of) {
            TypeMirror[] bounds = of.getTypeArguments().stream().map(each -> types.getWildcardType(each, null)).toArray(TypeMirror[]::new);
            return types.getDeclaredType((TypeElement) of.asElement(), bounds);
        }

        private void ask(String call, TypeMirror of, TypeMirror above) {
            boolean holds = call.equals("subtype") ? types.isSubtype(of, above) : types.isAssignable(of, above);
            truth(call + " " + call(of) + " " + call(above), holds);
        }

        private void askSupertypes(TypeElement element, List<TypeElement> all, int number) {
            TypeMirror of = element.asType();
            for (TypeMirror above : reached(of)) {
                ask("subtype", of, above);
                if (above.getKind() == TypeKind.DECLARED && !((DeclaredType) above).getTypeArguments().isEmpty()) {
                    ask("subtype", of, types.erasure(above));
                    ask("assignable", types.erasure(of), above);
                    DeclaredType declared = (DeclaredType) above;
                    if (declared.getTypeArguments().stream().noneMatch(each -> each.getKind() == TypeKind.WILDCARD)) {
                        ask("subtype", of, loosened(declared));
                    }
                }
            }
            for (int turn = 1; turn <= Math.min(OTHERS, all.size() - 1); turn++) {
                TypeMirror other = all.get((number + turn * APART) % all.size()).asType();
                ask("subtype", of, turn % 2 == 0 ? types.erasure(other) : other);
            }
        }

        // ---- overriding

        private void askOverriding(TypeElement of) {
            Set<Element> above = new LinkedHashSet<>();
            for (TypeElement each : headers(of)) {
                add(each, above);
            }
            for (ExecutableElement one : ElementFilter.methodsIn(of.getEnclosedElements())) {
                for (ExecutableElement other : ElementFilter.methodsIn(above)) {
                    if (one.getSimpleName().equals(other.getSimpleName()) && !one.getModifiers().contains(Modifier.PRIVATE)) {
                        truth("overrides " + element(one) + " " + element(other) + " " + element(of), elements.overrides(one, other, of));
                    }
                }
            }
        }
    }

    private static JavacTask task(StandardJavaFileManager manager, List<Path> files, Javac.Errors errors, List<String> options) {
        JavaCompiler compiler = ToolProvider.getSystemJavaCompiler();
        return (JavacTask) compiler.getTask(null, manager, errors, options, null, manager.getJavaFileObjectsFromPaths(files));
    }

    private static void answer(String mode, List<Path> files) throws IOException {
        Javac.Errors errors = new Javac.Errors(true);
        try (StandardJavaFileManager manager = Javac.files()) {
            if (mode.equals("legal")) {
                task(manager, files, errors, List.of("-proc:none", "-implicit:none", "-nowarn", "-Xlint:none")).analyze();
                System.out.println(errors.count());
                return;
            }
            JavacTask task = task(manager, files, errors, List.of("-proc:only", "-implicit:none", "-nowarn"));
            task.setProcessors(List.of(new Asker()));
            task.call();
            System.out.println();
        }
    }

    public static void main(String[] arguments) throws IOException {
        BufferedReader input = new BufferedReader(new InputStreamReader(System.in, StandardCharsets.UTF_8));
        for (String list = input.readLine(); list != null; list = input.readLine()) {
            List<Path> files = new ArrayList<>();
            for (String path : Files.readAllLines(Path.of(list))) {
                files.add(Path.of(path));
            }
            answer(arguments[0], files);
        }
    }
}
