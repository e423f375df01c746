import java.util.ArrayList;
import java.util.LinkedHashMap;
import java.util.List;
import java.util.Map;
import java.util.Set;
import java.util.TreeMap;
import java.util.TreeSet;
import java.util.stream.Collectors;
import javax.annotation.processing.AbstractProcessor;
import javax.annotation.processing.RoundEnvironment;
import javax.lang.model.SourceVersion;
import javax.lang.model.element.AnnotationMirror;
import javax.lang.model.element.AnnotationValue;
import javax.lang.model.element.Element;
import javax.lang.model.element.ElementKind;
import javax.lang.model.element.ExecutableElement;
import javax.lang.model.element.Modifier;
import javax.lang.model.element.ModuleElement;
import javax.lang.model.element.ModuleElement.ExportsDirective;
import javax.lang.model.element.TypeElement;
import javax.lang.model.element.TypeParameterElement;
import javax.lang.model.element.VariableElement;
import javax.lang.model.type.ArrayType;
import javax.lang.model.type.DeclaredType;
import javax.lang.model.type.TypeKind;
import javax.lang.model.type.TypeMirror;
import javax.lang.model.type.TypeVariable;
import javax.lang.model.type.WildcardType;
import javax.lang.model.util.ElementFilter;
import javax.lang.model.util.Elements;

/** Collects the declarations of some types, and of all that they enclose. */
final class Declarations extends AbstractProcessor {
    private final Set<String> wanted;
    private final String module;
    private final boolean isWithExported;
    /** The declaration of each element, by a key that tells it from all others. */
    final Map<String, String> texts = new LinkedHashMap<>();
    /** The keys of the members of each type, in order. */
    final Map<String, List<String>> members = new LinkedHashMap<>();
    /** The keys of the public and protected elements, each with that of the type around it, or with nothing. */
    final Map<String, String> visible = new TreeMap<>();
    private final Map<String, Set<String>> annotations = new TreeMap<>();
    /** The top-level types of the module, or of none, that declarations name. */
    final Set<String> named = new TreeSet<>();
    private Elements elements;

    /** @param wanted the names of types, and those of packages with {@code package-info} */
    Declarations(Set<String> wanted, String module, boolean isWithExported) {
        this.wanted = wanted;
        this.module = module;
        this.isWithExported = isWithExported;
    }

    Set<String> annotationsOf(Set<String> keys) {
        return annotations.entrySet().stream().filter(entry -> keys.contains(entry.getKey()))
            .flatMap(entry -> entry.getValue().stream()).collect(Collectors.toCollection(TreeSet::new));
    }

    @Override
    public Set<String> getSupportedAnnotationTypes() {
        return Set.of("*");
    }

    @Override
    public SourceVersion getSupportedSourceVersion() {
        return SourceVersion.latest();
    }

    @Override
    public boolean process(Set<? extends TypeElement> offered, RoundEnvironment round) {
        if (elements == null) {
            elements = processingEnv.getElementUtils();
            if (isWithExported) {
                addExported();
            }
            wanted.forEach(this::addWanted);
        }
        return false;
    }

    private void addExported() {
        List<ExportsDirective> exported =
            ElementFilter.exportsIn(elements.getModuleElement(module).getDirectives());
        exported.removeIf(one -> one.getTargetModules() != null);
        for (ExportsDirective one : exported) {
            for (TypeElement type : ElementFilter.typesIn(one.getPackage().getEnclosedElements())) {
                if (isVisible(type)) {
                    add(type);
                }
            }
        }
    }

    private void addWanted(String name) {
        String end = ".package-info";
        if (name.endsWith(end)) {
            Element of = elements.getPackageElement(name.substring(0, name.length() - end.length()));
            put(name, of, annotations(of));
        } else {
            add(elements.getTypeElement(name));
        }
    }

    private void add(TypeElement type) {
        String key = type.getQualifiedName().toString();
        List<String> keys = new ArrayList<>();
        put(key, type, declaration(type));
        for (Element member : type.getEnclosedElements()) {
            String kind = member.getKind().name();
            if (isType(member)) {
                add((TypeElement) member);
            } else if (!kind.equals("RECORD_COMPONENT") && !kind.endsWith("_INIT")) {
                String own = key + "#" + member.getSimpleName() + parameterTypes(member);
                put(own, member, declaration(member));
                if (!isOfEveryEnum(member)) {
                    keys.add(own);
                }
            }
        }
        members.put(key, keys);
    }

    private void put(String key, Element element, String text) {
        texts.put(key, text);
        Set<String> names = annotations.computeIfAbsent(key, k -> new TreeSet<>());
        List<Element> annotated = new ArrayList<>(List.of(element));
        if (element instanceof ExecutableElement) {
            annotated.addAll(((ExecutableElement) element).getParameters());
        }
        for (Element one : annotated) {
            one.getAnnotationMirrors().forEach(mirror -> names.add(type(mirror.getAnnotationType())));
        }
        if (isVisible(element)) {
            Element around = element.getEnclosingElement();
            visible.put(key, isType(around) ? around.toString() : "");
        }
    }

    private static boolean isVisible(Element element) {
        Set<Modifier> modifiers = element.getModifiers();
        return modifiers.contains(Modifier.PUBLIC) || modifiers.contains(Modifier.PROTECTED);
    }

    private static boolean isType(Element element) {
        return element.getKind().isClass() || element.getKind().isInterface();
    }

    /** A constant of an enum, or one of the methods and constructors that every enum has. */
    private static boolean isOfEveryEnum(Element member) {
        ElementKind kind = member.getKind();
        return member.getEnclosingElement().getKind() == ElementKind.ENUM
            && (kind == ElementKind.ENUM_CONSTANT || kind == ElementKind.CONSTRUCTOR
                || Set.of("values()", "valueOf(java.lang.String)").contains(member.toString()));
    }

    // The texts of declarations.

    private String declaration(TypeElement type) {
        boolean isClass = type.getKind().isClass() && type.getKind() != ElementKind.ENUM;
        return annotations(type) + modifiers(type) + (isClass ? "CLASS" : type.getKind())
            + typeParameters(type.getTypeParameters()) + " extends " + type(type.getSuperclass())
            + " implements " + types(type.getInterfaces());
    }

    private String declaration(Element member) {
        String front = annotations(member) + modifiers(member) + member.getKind();
        return front + (member instanceof VariableElement
            ? field((VariableElement) member) : executable((ExecutableElement) member));
    }

    private String field(VariableElement field) {
        Object constant = field.getConstantValue();
        return " " + type(field.asType()) + (constant == null ? "" : " = " + constant(constant));
    }

    private String executable(ExecutableElement executable) {
        boolean isMethod = executable.getKind() == ElementKind.METHOD;
        List<? extends TypeMirror> thrown = executable.getThrownTypes();
        AnnotationValue value = executable.getDefaultValue();
        return typeParameters(executable.getTypeParameters())
            + (isMethod ? " " + type(executable.getReturnType()) : "")
            + executable.getParameters().stream().map(this::parameter).collect(Collectors.joining(", ", "(", ")"))
            + (executable.isVarArgs() ? "..." : "")
            + (thrown.isEmpty() ? "" : " throws " + types(thrown))
            + (value == null ? "" : " default " + value(value));
    }

    private String parameter(VariableElement parameter) {
        String modifiers = parameter.getModifiers().isEmpty() ? "" : modifiers(parameter);
        return annotations(parameter) + modifiers + type(parameter.asType()) + " " + parameter.getSimpleName();
    }

    private String parameterTypes(Element member) {
        return member instanceof VariableElement ? "" : ((ExecutableElement) member).getParameters().stream()
            .map(one -> type(one.asType())).collect(Collectors.joining(",", "(", ")"));
    }

    private static String modifiers(Element element) {
        List<String> modifiers = new ArrayList<>();
        element.getModifiers().forEach(one -> modifiers.add(one.toString()));
        modifiers.removeAll(List.of("sealed", "non-sealed"));
        if (element.getKind() == ElementKind.ENUM) {
            modifiers.remove("abstract");
        }
        return "[" + String.join(" ", modifiers) + "] ";
    }

    private String typeParameters(List<? extends TypeParameterElement> parameters) {
        return parameters.isEmpty() ? "" : parameters.stream()
            .map(one -> annotations(one) + one.getSimpleName() + " extends " + types(one.getBounds()))
            .collect(Collectors.joining(", ", "<", ">"));
    }

    // Types.

    private String types(List<? extends TypeMirror> types) {
        return types.stream().map(this::type).collect(Collectors.joining(" & "));
    }

    private String type(TypeMirror type) {
        switch (type.getKind()) {
            case DECLARED:
            case ERROR:
                return declared((DeclaredType) type);
            case ARRAY:
                return type(((ArrayType) type).getComponentType()) + "[]";
            case TYPEVAR:
                Element variable = ((TypeVariable) type).asElement();
                return variable.getSimpleName() + "@" + variable.getEnclosingElement().getSimpleName();
            case WILDCARD:
                TypeMirror extended = ((WildcardType) type).getExtendsBound();
                TypeMirror supered = ((WildcardType) type).getSuperBound();
                return "?" + (extended == null ? "" : " extends " + type(extended))
                    + (supered == null ? "" : " super " + type(supered));
            default:
                return type.getKind().toString();
        }
    }

    private String declared(DeclaredType type) {
        TypeMirror around = type.getEnclosingType();
        List<? extends TypeMirror> arguments = type.getTypeArguments();
        return (around.getKind() == TypeKind.DECLARED ? "(" + type(around) + ")." : "")
            + name((TypeElement) type.asElement()) + (arguments.isEmpty() ? "" : "<" + types(arguments) + ">");
    }

    private String name(TypeElement type) {
        ModuleElement of = elements.getModuleOf(type);
        if (of != null && of.getQualifiedName().contentEquals(module)) {
            Element top = type;
            while (isType(top.getEnclosingElement())) {
                top = top.getEnclosingElement();
            }
            named.add(top.toString());
        }
        return type.getQualifiedName().toString();
    }

    // Annotations and values.

    private String annotations(Element element) {
        return element.getAnnotationMirrors().stream().map(this::annotation).collect(Collectors.joining());
    }

    private String annotation(AnnotationMirror annotation) {
        return annotation.getElementValues().entrySet().stream()
            .map(entry -> entry.getKey().getSimpleName() + " = " + value(entry.getValue()))
            .collect(Collectors.joining(", ", "@" + type(annotation.getAnnotationType()) + "(", ") "));
    }

    private String value(AnnotationValue value) {
        Object object = value.getValue();
        if (object instanceof TypeMirror) {
            return type((TypeMirror) object) + ".class";
        }
        if (object instanceof VariableElement) {
            Element constant = (VariableElement) object;
            return name((TypeElement) constant.getEnclosingElement()) + "." + constant;
        }
        if (object instanceof AnnotationMirror) {
            return annotation((AnnotationMirror) object);
        }
        if (object instanceof List) {
            return ((List<?>) object).stream().map(one -> value((AnnotationValue) one))
                .collect(Collectors.joining(", ", "{", "}"));
        }
        return constant(object);
    }

    /** A constant with its class, and with the numbers of the characters that may not be printed. */
    private static String constant(Object constant) {
        return constant.getClass().getSimpleName() + " " + constant.toString().chars()
            .mapToObj(c -> c > ' ' && c <= '~' ? String.valueOf((char) c) : "{" + c + "}")
            .collect(Collectors.joining());
    }
}
