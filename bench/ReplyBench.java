import com.sun.source.util.JavacTask;
import com.sun.source.util.Trees;
import java.io.BufferedReader;
import java.io.IOException;
import java.io.InputStreamReader;
import java.io.PrintStream;
import java.nio.charset.StandardCharsets;
import java.nio.file.Files;
import java.nio.file.Path;
import java.util.ArrayList;
import java.util.Arrays;
import java.util.Collection;
import java.util.Comparator;
import java.util.HashSet;
import java.util.LinkedHashMap;
import java.util.LinkedHashSet;
import java.util.List;
import java.util.Map;
import java.util.Random;
import java.util.Set;
import java.util.TreeSet;
import java.util.function.Supplier;
import java.util.stream.Collectors;
import javax.annotation.processing.AbstractProcessor;
import javax.annotation.processing.RoundEnvironment;
import javax.annotation.processing.SupportedAnnotationTypes;
import javax.lang.model.SourceVersion;
import javax.lang.model.element.AnnotationMirror;
import javax.lang.model.element.Element;
import javax.lang.model.element.ElementKind;
import javax.lang.model.element.ExecutableElement;
import javax.lang.model.element.Modifier;
import javax.lang.model.element.PackageElement;
import javax.lang.model.element.Parameterizable;
import javax.lang.model.element.TypeElement;
import javax.lang.model.element.TypeParameterElement;
import javax.lang.model.element.VariableElement;
import javax.lang.model.type.ArrayType;
import javax.lang.model.type.DeclaredType;
import javax.lang.model.type.ExecutableType;
import javax.lang.model.type.IntersectionType;
import javax.lang.model.type.PrimitiveType;
import javax.lang.model.type.TypeKind;
import javax.lang.model.type.TypeMirror;
import javax.lang.model.type.WildcardType;
import javax.lang.model.util.ElementFilter;
import javax.lang.model.util.Elements;
import javax.lang.model.util.Types;
import javax.tools.JavaCompiler;
import javax.tools.StandardJavaFileManager;
import javax.tools.ToolProvider;

/**
 * Has javac read files, and prints its replies to the questions of a child as rows of the table {@code answer_cases}, without frames. A line of the
 * input is a file with the paths of the files that are read, one on each line, the packages that are asked about, joined by commas, and options of
 * javac. It is answered by the rows, a line {@code # errors NUMBER}, and an empty line.
 *
 * <p>Of each package, type, type parameter, member and parameter of the packages each question is asked that has one element as its argument, of
 * each type's name {@code TypeElement}, and of each type that is written anywhere each question that has one type as its argument. Questions with two
 * arguments or more are asked of pairs that a seed chooses. What the method of {@code javax.lang.model} cannot be called with is answered by
 * {@code refused WrongKind}, and so is what it throws {@code IllegalArgumentException} for. An intersection is answered by its bounds.
 *
 * <p>What helps to say why the library has another reply stands in lines that begin with {@code #}: those of {@link AnnotationFacts}, and
 *
 * <ul>
 * <li>{@code # element ELEMENT KIND MODIFIERS NAME PARAMETERS VARIABLES}: what an element is that is asked about, that is in a type above such a
 *     one, or that a written type names, with the number of its type parameters;
 * <li>{@code # above TYPE TYPE..}: the types above a type;
 * <li>{@code # order QUESTION = REPLY}: the reply as javac orders it, where the row has another order;
 * <li>{@code # apart QUESTION = REPLY}: the reply where each annotation that is written stands alone, which javac has in one.
 * </ul>
 */
final class ReplyBench {
    // How many pairs there are for each type, and how many of each other kind of pair.
    private static final int OTHERS = 4;
    private static final int PAIRS = 24;
    private static final int MEMBERS = 10;
    private static final int CONTAINERS = 4;
    private static final int CONTAINED = 400;

    /** Prints the rows of the roots. */
    @SupportedAnnotationTypes("*")
    private static final class Asker extends AbstractProcessor {
        private final PrintStream out;
        private final Set<String> packages;
        private final Random random = new Random(1);
        private final Map<String, TypeMirror> written = new LinkedHashMap<>();
        private final Set<String> told = new HashSet<>();
        private Elements elements;
        private Types types;
        private ElementWords places;
        private ReplyWords words;
        private AnnotationFacts facts;
        private RoundEnvironment round;

        Asker(PrintStream out, Set<String> packages) {
            this.out = out;
            this.packages = packages;
        }

        @Override
        public SourceVersion getSupportedSourceVersion() {
            return SourceVersion.latest();
        }

        @Override
        public boolean process(Set<? extends TypeElement> annotations, RoundEnvironment round) {
            if (round.processingOver()) {
                return false;
            }
            this.round = round;
            elements = processingEnv.getElementUtils();
            types = processingEnv.getTypeUtils();
            Trees trees = Trees.instance(processingEnv);
            places = new ElementWords(elements, trees);
            words = new ReplyWords(places);
            facts = new AnnotationFacts(out, types, trees, places);
            askAll(annotations);
            return false;
        }

        private void askAll(Set<? extends TypeElement> annotations) {
            List<TypeElement> all = new ArrayList<>();
            for (Element root : roots()) {
                if (root instanceof TypeElement) {
                    gather((TypeElement) root, all);
                }
            }
            askRound(annotations, all);
            askPackages();
            all.forEach(this::askEach);
            askOfTypes(all);
            askPairs(all);
        }

        private static void gather(TypeElement of, List<TypeElement> all) {
            all.add(of);
            ElementFilter.typesIn(of.getEnclosedElements()).forEach(each -> gather(each, all));
        }

        private void ask(String question, Supplier<String> reply) {
            out.println("ask " + question + " = " + replied(reply));
        }

        private static String replied(Supplier<String> reply) {
            try {
                return reply.get();
            } catch (IllegalArgumentException refusal) {
                return "refused WrongKind";
            } catch (RuntimeException | AssertionError | StackOverflowError failure) {
                return "failed " + failure.getClass().getSimpleName();
            }
        }

        private void askIf(boolean isAdmitted, String question, Supplier<String> reply) {
            ask(question, () -> isAdmitted ? reply.get() : "refused WrongKind");
        }

        private boolean isAsked(Element of) {
            return packages.contains(elements.getPackageOf(of).getQualifiedName().toString());
        }

        private <T> List<T> some(Collection<? extends T> of, int most) {
            List<T> chosen = new ArrayList<>(of);
            while (chosen.size() > most) {
                chosen.remove(random.nextInt(chosen.size()));
            }
            return chosen;
        }

        // ---- the round

        private List<Element> roots() {
            return round.getRootElements().stream().filter(each -> isAsked(each) && each.getKind() != ElementKind.MODULE)
                    .sorted(Comparator.comparing(words::element)).collect(Collectors.toList());
        }

        private void askRound(Set<? extends TypeElement> annotations, List<TypeElement> all) {
            ask("Roots", () -> words.elements(roots()));
            Set<String> names = new TreeSet<>();
            annotations.forEach(each -> names.add(each.getQualifiedName().toString()));
            all.stream().filter(each -> each.getKind() == ElementKind.ANNOTATION_TYPE).forEach(each -> names.add(each.getQualifiedName().toString()));
            for (String name : names) {
                ask("AnnotatedWith " + name, () -> words.elements(annotatedWith(name)));
            }
            ask("AnnotatedWith none.Of.This", () -> "elements none");
        }

        private List<Element> annotatedWith(String name) {
            return round.getElementsAnnotatedWith(elements.getTypeElement(name)).stream().filter(this::isAsked)
                    .sorted(Comparator.comparing(words::element)).collect(Collectors.toList());
        }

        private void askPackages() {
            for (String name : packages) {
                PackageElement of = elements.getPackageElement(name);
                ask("PackageElement " + ReplyWords.text(name), () -> words.elements(of == null ? List.of() : List.of(of)));
                if (of != null) {
                    askElement(of);
                }
            }
            ask("PackageElement none.of.these", () -> "elements none");
        }

        // ---- elements

        private void askEach(TypeElement of) {
            String name = of.getQualifiedName().toString();
            ask("TypeElement " + name, () -> words.elements(List.of(elements.getTypeElement(name))));
            for (TypeElement above : above(of)) {
                for (TypeElement each : some(ElementFilter.typesIn(above.getEnclosedElements()), 1)) {
                    String inherited = name + "." + each.getSimpleName();
                    TypeElement found = elements.getTypeElement(inherited);
                    ask("TypeElement " + inherited, () -> words.elements(found == null ? List.of() : List.of(found)));
                }
            }
            askElement(of);
            of.getTypeParameters().forEach(this::askElement);
            for (Element member : places.members(of)) {
                if (member instanceof TypeElement) {
                    continue;
                }
                askElement(member);
                if (member instanceof ExecutableElement) {
                    ((ExecutableElement) member).getTypeParameters().forEach(this::askElement);
                    ((ExecutableElement) member).getParameters().forEach(this::askElement);
                }
            }
        }

        private void askElement(Element of) {
            String at = " " + words.element(of);
            tell(of);
            ask("Info" + at, () -> ReplyWords.info(of));
            ask("Enclosing" + at, () -> enclosing(of));
            askEnclosed(of, at);
            askIf(of instanceof Parameterizable, "TypeParameters" + at, () -> words.elements(((Parameterizable) of).getTypeParameters()));
            askIf(of instanceof ExecutableElement, "Parameters" + at, () -> words.elements(((ExecutableElement) of).getParameters()));
            ask("PackageOf" + at, () -> words.elements(List.of(elements.getPackageOf(of))));
            ask("DocComment" + at, () -> ReplyWords.texts(elements.getDocComment(of)));
            askAnnotations(of, at);
            askValues(of, at);
            ask("TypeOf" + at, () -> words.mirrors(List.of(of.asType())));
            note(of.asType());
            askTypeFacts(of, at);
        }

        private String enclosing(Element of) {
            Element around = of.getEnclosingElement();
            if (around == null) {
                return "elements none";
            }
            return around.getKind() == ElementKind.MODULE ? "elements module=" + around : words.elements(List.of(around));
        }

        private void askEnclosed(Element of, String at) {
            List<Element> inOrder = new ArrayList<>(of.getEnclosedElements());
            if (of instanceof TypeElement) {
                inOrder = places.members((TypeElement) of);
            } else if (of.getKind() == ElementKind.PACKAGE) {
                inOrder.sort(Comparator.comparing(words::element));
            }
            List<Element> asked = inOrder;
            if (!inOrder.equals(of.getEnclosedElements())) {
                out.println("# order Enclosed" + at + " = " + words.elements(of.getEnclosedElements()));
            }
            ask("Enclosed" + at, () -> words.elements(asked));
        }

        private void askAnnotations(Element of, String at) {
            List<? extends AnnotationMirror> own = of.getAnnotationMirrors();
            List<? extends AnnotationMirror> all = elements.getAllAnnotationMirrors(of);
            List<AnnotationMirror> inherited = new ArrayList<>();
            all.stream().filter(each -> !own.contains(each)).forEach(each -> inherited.add(0, each));
            facts.tellNames(of, of, facts.annotationTrees(of));
            if (!inherited.isEmpty()) {
                facts.classesAbove(of).forEach(each -> facts.tellNames(of, each, facts.annotationTrees(each)));
            }
            askAnnotations("Annotations" + at, of, own);
            askAnnotations("AllAnnotations" + at, of, all);
            List<AnnotationMirror> numbered = new ArrayList<>(facts.apart(of, own));
            numbered.addAll(facts.apart(of, inherited));
            for (int number = 0; number <= numbered.size(); number++) {
                askDefaults(of, at, numbered, number);
            }
        }

        private void askAnnotations(String question, Element of, List<? extends AnnotationMirror> mirrors) {
            List<AnnotationMirror> apart = facts.apart(of, mirrors);
            if (apart.size() != mirrors.size()) {
                out.println("# apart " + question + " = " + words.annotations(apart));
            }
            ask(question, () -> words.annotations(mirrors));
        }

        private void askDefaults(Element of, String at, List<AnnotationMirror> numbered, int number) {
            boolean isThere = number < numbered.size();
            if (isThere) {
                elements.getElementValuesWithDefaults(numbered.get(number)).keySet().forEach(each -> facts.tellNames(of, each, facts.treeOf(each)));
            }
            askIf(isThere, "ValuesWithDefaults" + at + " " + number, () -> words.values(elements.getElementValuesWithDefaults(numbered.get(number))));
        }

        private void askValues(Element of, String at) {
            boolean isMethod = of.getKind() == ElementKind.METHOD;
            if (isMethod && ((ExecutableElement) of).getDefaultValue() != null) {
                facts.tellNames(of, of, facts.treeOf(of));
            }
            askIf(isMethod, "DefaultValue" + at, () -> {
                javax.lang.model.element.AnnotationValue value = ((ExecutableElement) of).getDefaultValue();
                return ReplyWords.unnamed(value == null ? null : words.value(value));
            });
            if (of.getKind() == ElementKind.FIELD) {
                facts.tellNames(of, of, facts.treeOf(of));
                out.println("# form " + words.element(of) + " " + facts.formOf((VariableElement) of));
            }
            askIf(of.getKind().isField(), "ConstantValue" + at, () -> {
                Object value = ((VariableElement) of).getConstantValue();
                return ReplyWords.unnamed(value == null ? null : ReplyWords.constant(value));
            });
        }

        private void askTypeFacts(Element of, String at) {
            boolean isType = of instanceof TypeElement;
            if (isType) {
                tellMembers((TypeElement) of);
                note(((TypeElement) of).getSuperclass());
                ((TypeElement) of).getInterfaces().forEach(this::note);
            }
            askIf(isType, "AllMembers" + at, () -> words.elements(elements.getAllMembers((TypeElement) of)));
            askIf(isType, "Superclass" + at, () -> words.mirrors(List.of(((TypeElement) of).getSuperclass())));
            askIf(isType, "Interfaces" + at, () -> words.mirrors(((TypeElement) of).getInterfaces()));
            askIf(of instanceof TypeParameterElement, "Bounds" + at, () -> words.mirrors(((TypeParameterElement) of).getBounds()));
        }

        // ---- facts

        private Set<TypeElement> above(TypeElement of) {
            Set<TypeElement> above = new LinkedHashSet<>();
            List<TypeMirror> next = new ArrayList<>(of.getInterfaces());
            next.add(0, of.getSuperclass());
            for (TypeMirror each : next) {
                if (each.getKind() == TypeKind.DECLARED) {
                    TypeElement element = (TypeElement) ((DeclaredType) each).asElement();
                    above.add(element);
                    above.addAll(above(element));
                }
            }
            return above;
        }

        private void tell(Element of) {
            String at = words.element(of);
            if (told.add(at)) {
                String parameters = of instanceof ExecutableElement
                        ? ((ExecutableElement) of).getParameters().stream().map(each -> words.mirror(types.erasure(each.asType()))).collect(Collectors.joining(","))
                        : "";
                String[] info = ReplyWords.info(of).split(" ");
                int variables = of instanceof Parameterizable ? ((Parameterizable) of).getTypeParameters().size() : 0;
                out.println("# element " + at + " " + info[1] + " " + info[2] + " " + ReplyWords.text(of.getSimpleName()) + " "
                        + (parameters.isEmpty() ? "-" : parameters) + " " + variables);
            }
        }

        private void tellMembers(TypeElement of) {
            Set<TypeElement> above = above(of);
            out.println("# above " + words.element(of) + above.stream().map(each -> " " + words.element(each)).collect(Collectors.joining()));
            for (TypeElement each : above) {
                tell(each);
                places.members(each).forEach(this::tell);
            }
            TypeElement object = elements.getTypeElement("java.lang.Object");
            tell(object);
            places.members(object).forEach(this::tell);
        }

        // ---- types

        // Keeps a type that is written somewhere, and what it holds.
        private void note(TypeMirror of) {
            if (of.getKind() == TypeKind.INTERSECTION || written.putIfAbsent(words.mirror(of), of) != null) {
                return;
            }
            switch (of.getKind()) {
                case ARRAY:
                    note(((ArrayType) of).getComponentType());
                    break;
                case DECLARED:
                    tell(((DeclaredType) of).asElement());
                    ((DeclaredType) of).getTypeArguments().forEach(this::note);
                    break;
                case WILDCARD:
                    noteBounds((WildcardType) of);
                    break;
                case EXECUTABLE:
                    ((ExecutableType) of).getParameterTypes().forEach(this::note);
                    note(((ExecutableType) of).getReturnType());
                    ((ExecutableType) of).getThrownTypes().forEach(this::note);
                    break;
                default:
                    break;
            }
        }

        private void noteBounds(WildcardType of) {
            if (of.getExtendsBound() != null) {
                note(of.getExtendsBound());
            }
            if (of.getSuperBound() != null) {
                note(of.getSuperBound());
            }
        }

        private void askOfTypes(List<TypeElement> all) {
            Arrays.stream(TypeKind.values()).filter(TypeKind::isPrimitive).forEach(each -> note(types.getPrimitiveType(each)));
            note(types.getNullType());
            note(types.getNoType(TypeKind.VOID));
            note(types.getNoType(TypeKind.NONE));
            for (TypeElement each : all) {
                note(types.erasure(each.asType()));
            }
            for (TypeMirror each : new ArrayList<>(written.values())) {
                if (each.getKind() != TypeKind.EXECUTABLE || random.nextInt(3) == 0) {
                    askOfType(each);
                }
            }
        }

        private void askOfType(TypeMirror of) {
            String at = " " + words.mirror(of);
            ask("DirectSupertypes" + at, () -> words.mirrors(flattened(types.directSupertypes(of))));
            ask("Erasure" + at, () -> words.mirrors(List.of(types.erasure(of))));
            askIf(of.getKind().isPrimitive(), "Boxed" + at, () -> words.mirrors(List.of(types.boxedClass((PrimitiveType) of).asType())));
            ask("Unboxed" + at, () -> words.mirrors(List.of(types.unboxedType(of))));
            ask("AsElement" + at, () -> {
                Element element = types.asElement(of);
                return words.elements(element == null ? List.of() : List.of(element));
            });
            ask("PrintType" + at, () -> ReplyWords.texts(of.getKind() == TypeKind.NONE ? "none" : of.toString()));
            ask("ArrayType" + at, () -> words.mirrors(List.of(types.getArrayType(of))));
        }

        private static List<TypeMirror> flattened(List<? extends TypeMirror> types) {
            List<TypeMirror> flat = new ArrayList<>();
            for (TypeMirror each : types) {
                if (each.getKind() == TypeKind.INTERSECTION) {
                    flat.addAll(((IntersectionType) each).getBounds());
                } else {
                    flat.add(each);
                }
            }
            return flat;
        }

        // ---- pairs

        private void askPairs(List<TypeElement> all) {
            // Where one of two types is none, javac fails.
            List<TypeMirror> mirrors = written.values().stream().filter(each -> each.getKind() != TypeKind.EXECUTABLE && each.getKind() != TypeKind.NONE)
                    .collect(Collectors.toList());
            List<TypeMirror> methods = written.values().stream().filter(each -> each.getKind() == TypeKind.EXECUTABLE).collect(Collectors.toList());
            for (TypeElement each : all) {
                askSupertypes(each, mirrors);
                askMethods(each);
                askMembers(each);
                askDeclared(each, mirrors);
            }
            List<TypeMirror> wildcards = mirrors.stream().filter(each -> each.getKind() == TypeKind.WILDCARD).collect(Collectors.toList());
            for (TypeMirror each : some(wildcards, CONTAINED)) {
                some(mirrors, OTHERS).forEach(other -> askBoth("Contains", each, other));
                some(wildcards, OTHERS).forEach(other -> askBoth("Contains", each, other));
            }
            for (TypeMirror each : some(mirrors, CONTAINED)) {
                some(mirrors, OTHERS).forEach(other -> askAllOf(each, other));
            }
            for (TypeMirror each : some(methods, CONTAINED)) {
                some(methods, OTHERS).forEach(other -> askBoth("Subsignature", each, other));
                some(mirrors, 1).forEach(other -> askBoth("Subtype", each, other));
                some(mirrors, 1).forEach(other -> askBoth("Subsignature", other, each));
            }
        }

        private void askBoth(String question, TypeMirror one, TypeMirror other) {
            ask(question + " " + words.mirror(one) + " " + words.mirror(other), () -> ReplyWords.truth(holds(question, one, other)));
        }

        private boolean holds(String question, TypeMirror one, TypeMirror other) {
            switch (question) {
                case "SameType":
                    return types.isSameType(one, other);
                case "Subtype":
                    return types.isSubtype(one, other);
                case "Assignable":
                    return types.isAssignable(one, other);
                case "Contains":
                    return types.contains(one, other);
                default:
                    if (one.getKind() != TypeKind.EXECUTABLE || other.getKind() != TypeKind.EXECUTABLE) {
                        throw new IllegalArgumentException(question);
                    }
                    return types.isSubsignature((ExecutableType) one, (ExecutableType) other);
            }
        }

        private void askAllOf(TypeMirror one, TypeMirror other) {
            for (String question : List.of("SameType", "Subtype", "Assignable", "Contains")) {
                askBoth(question, one, other);
            }
        }

        private List<TypeMirror> reached(TypeMirror of) {
            List<TypeMirror> reached = new ArrayList<>(types.directSupertypes(of));
            for (int at = 0; at < reached.size(); at++) {
                for (TypeMirror each : types.directSupertypes(reached.get(at))) {
                    if (reached.stream().noneMatch(one -> types.isSameType(one, each))) {
                        reached.add(each);
                    }
                }
            }
            return reached;
        }

        private TypeMirror loosened(DeclaredType of, boolean isBelow) {
            TypeMirror[] bounds = of.getTypeArguments().stream()
                    .map(each -> each.getKind() == TypeKind.WILDCARD ? each : isBelow ? types.getWildcardType(null, each) : types.getWildcardType(each, null))
                    .toArray(TypeMirror[]::new);
            TypeElement element = (TypeElement) of.asElement();
            return of.getEnclosingType().getKind() == TypeKind.DECLARED ? types.getDeclaredType((DeclaredType) of.getEnclosingType(), element, bounds)
                    : types.getDeclaredType(element, bounds);
        }

        private void askSupertypes(TypeElement element, List<TypeMirror> mirrors) {
            TypeMirror of = element.asType();
            askAllOf(of, of);
            for (TypeMirror above : some(reached(of), PAIRS / 2)) {
                askBoth("Subtype", of, above);
                askBoth("Subtype", above, of);
                askBoth("SameType", of, above);
                if (above.getKind() == TypeKind.DECLARED && !((DeclaredType) above).getTypeArguments().isEmpty()) {
                    askBoth("Subtype", of, types.erasure(above));
                    askBoth("Assignable", types.erasure(of), above);
                    askBoth("Subtype", types.getArrayType(of), types.getArrayType(above));
                    askBoth("Subtype", of, loosened((DeclaredType) above, false));
                    askBoth("Assignable", of, loosened((DeclaredType) above, true));
                }
            }
            for (TypeMirror other : some(mirrors, OTHERS)) {
                askAllOf(of, other);
                askBoth("Assignable", other, of);
            }
        }

        // Methods of one name, of a type and of those above it.
        private void askMethods(TypeElement of) {
            List<ExecutableElement> all = new ArrayList<>(ElementFilter.methodsIn(of.getEnclosedElements()));
            above(of).forEach(each -> all.addAll(ElementFilter.methodsIn(each.getEnclosedElements())));
            List<List<ExecutableElement>> pairs = new ArrayList<>();
            for (ExecutableElement one : all) {
                for (ExecutableElement other : all) {
                    if (one.getSimpleName().equals(other.getSimpleName())) {
                        pairs.add(List.of(one, other));
                    }
                }
            }
            for (List<ExecutableElement> each : some(pairs, PAIRS)) {
                askOverriding(each.get(0), each.get(1), of);
                askBoth("Subsignature", each.get(0).asType(), each.get(1).asType());
            }
            if (all.size() > 1) {
                askOverriding(all.get(0), all.get(all.size() - 1), of);
            }
        }

        private void askOverriding(ExecutableElement one, ExecutableElement other, TypeElement of) {
            ask("Overrides " + words.element(one) + " " + words.element(other) + " " + words.element(of),
                    () -> ReplyWords.truth(elements.overrides(one, other, of)));
        }

        private void askMembers(TypeElement of) {
            Map<String, TypeMirror> containers = new LinkedHashMap<>();
            containers.put(words.mirror(of.asType()), of.asType());
            TypeMirror erasure = types.erasure(of.asType());
            containers.put(words.mirror(erasure), erasure);
            written.values().stream().filter(each -> each.getKind() == TypeKind.DECLARED && ((DeclaredType) each).asElement().equals(of)).limit(CONTAINERS)
                    .forEach(each -> containers.put(words.mirror(each), each));
            List<? extends Element> members = elements.getAllMembers(of);
            containers.forEach((word, container) -> {
                for (Element each : some(members, MEMBERS)) {
                    ask("MemberType " + word + " " + words.element(each), () -> words.mirrors(List.of(types.asMemberOf((DeclaredType) container, each))));
                }
            });
        }

        private void askDeclared(TypeElement of, List<TypeMirror> mirrors) {
            List<TypeMirror> own = of.getTypeParameters().stream().map(Element::asType).collect(Collectors.toList());
            askDeclaredWith(of, List.of());
            askDeclaredWith(of, own);
            askDeclaredWith(of, some(mirrors, own.size()));
            askDeclaredWith(of, some(mirrors, own.size() + 1));
        }

        private void askDeclaredWith(TypeElement of, List<TypeMirror> arguments) {
            String behind = arguments.stream().map(each -> " " + words.mirror(each)).collect(Collectors.joining());
            ask("DeclaredType " + words.element(of) + behind, () -> words.mirrors(List.of(types.getDeclaredType(of, arguments.toArray(TypeMirror[]::new)))));
        }
    }

    private static void answer(String[] line, PrintStream out) throws IOException {
        List<Path> files = new ArrayList<>();
        for (String path : Files.readAllLines(Path.of(line[0]))) {
            files.add(Path.of(path));
        }
        List<String> options = new ArrayList<>(List.of("-proc:only", "-implicit:none", "-nowarn", "-Xlint:none", "-Xmaxerrs", "100000"));
        options.addAll(Arrays.asList(line).subList(2, line.length));
        Javac.Errors errors = new Javac.Errors(true);
        JavaCompiler compiler = ToolProvider.getSystemJavaCompiler();
        try (StandardJavaFileManager manager = Javac.files()) {
            JavacTask task = (JavacTask) compiler.getTask(null, manager, errors, options, null, manager.getJavaFileObjectsFromPaths(files));
            task.setProcessors(List.of(new Asker(out, new TreeSet<>(Arrays.asList(line[1].split(","))))));
            task.call();
        }
        out.println("# errors " + errors.count());
        out.println();
    }

    public static void main(String[] arguments) throws IOException {
        BufferedReader input = new BufferedReader(new InputStreamReader(System.in, StandardCharsets.UTF_8));
        PrintStream out = new PrintStream(System.out, false, StandardCharsets.UTF_8);
        for (String line = input.readLine(); line != null; line = input.readLine()) {
            answer(line.split(" "), out);
            out.flush();
        }
    }
}
