import java.io.IOException;
import java.io.UncheckedIOException;
import java.io.Writer;
import java.util.Comparator;
import java.util.HashSet;
import java.util.List;
import java.util.Map;
import java.util.Objects;
import java.util.Set;
import java.util.TreeMap;
import java.util.stream.Collectors;
import java.util.stream.Stream;
import javax.annotation.processing.AbstractProcessor;
import javax.annotation.processing.RoundEnvironment;
import javax.lang.model.SourceVersion;
import javax.lang.model.element.AnnotationMirror;
import javax.lang.model.element.AnnotationValue;
import javax.lang.model.element.Element;
import javax.lang.model.element.ElementKind;
import javax.lang.model.element.ExecutableElement;
import javax.lang.model.element.PackageElement;
import javax.lang.model.element.TypeElement;
import javax.lang.model.element.TypeParameterElement;
import javax.lang.model.element.VariableElement;
import javax.lang.model.type.DeclaredType;
import javax.lang.model.type.ExecutableType;
import javax.lang.model.type.TypeKind;
import javax.lang.model.type.TypeMirror;
import javax.lang.model.type.TypeVariable;
import javax.lang.model.type.WildcardType;
import javax.lang.model.util.Elements;
import javax.lang.model.util.Types;
import javax.tools.StandardLocation;

/** Writes a file on all that the model says of the root elements, and of what they name. */
public final class Everything extends AbstractProcessor {
    private static final Set<TypeKind> NO_TYPES =
        Set.of(TypeKind.EXECUTABLE, TypeKind.NONE, TypeKind.VOID, TypeKind.PACKAGE, TypeKind.NULL);

    private final StringBuilder out = new StringBuilder();
    private Elements elements;
    private Types types;

    @Override
    public Set<String> getSupportedAnnotationTypes() {
        return Set.of("*");
    }

    @Override
    public Set<String> getSupportedOptions() {
        return Set.of("key", "further");
    }

    @Override
    public SourceVersion getSupportedSourceVersion() {
        return SourceVersion.latestSupported();
    }

    @Override
    public boolean process(Set<? extends TypeElement> annotations, RoundEnvironment round) {
        elements = processingEnv.getElementUtils();
        types = processingEnv.getTypeUtils();
        line("", "over, error", round.processingOver() + ", " + round.errorRaised());
        line("", "options", new TreeMap<>(processingEnv.getOptions()) + " "
            + processingEnv.getSourceVersion());
        sorted(annotations).forEach(one -> line("", "annotated with " + one,
            round.getElementsAnnotatedWith(one)
            .stream().map(Everything::placed).sorted().collect(Collectors.toList())));
        sorted(round.getRootElements()).forEach(root -> print(root, ""));
        if (round.processingOver()) {
            String further = processingEnv.getOptions().getOrDefault("further", "");
            Stream.of(further.split(",")).map(elements::getTypeElement).filter(Objects::nonNull)
                .forEach(one -> print(one, ""));
            write();
        }
        return false;
    }

    private static <E extends Element> List<E> sorted(Set<E> elements) {
        return elements.stream().sorted(Comparator.comparing(Object::toString)).collect(Collectors.toList());
    }

    /** An element with what encloses it; a package alone, since a module encloses it for some. */
    private static String placed(Element element) {
        return (element.getKind() == ElementKind.PACKAGE ? "" : element.getEnclosingElement() + "/")
            + element;
    }

    private void write() {
        try (Writer file = processingEnv.getFiler()
                .createResource(StandardLocation.CLASS_OUTPUT, "", "everything.txt").openWriter()) {
            file.write(out.toString());
        } catch (IOException e) {
            throw new UncheckedIOException(e);
        }
    }

    private void line(String indent, String name, Object value) {
        out.append(indent).append(name).append(": ").append(value).append('\n');
    }

    // Elements.

    private void print(Element element, String indent) {
        line(indent, element.getKind() + " " + element.getSimpleName(),
            placed(element) + element.getModifiers());
        String in = indent + "  ";
        line(in, "annotations", annotations(element.getAnnotationMirrors()));
        line(in, "all annotations", annotations(elements.getAllAnnotationMirrors(element)));
        line(in, "documentation", String.valueOf(elements.getDocComment(element)).replace("\n", "\\n"));
        line(in, "deprecated", elements.isDeprecated(element));
        line(in, "package", elements.getPackageOf(element));
        line(in, "type", type(element.asType()));
        if (element instanceof PackageElement) {
            line(in, "unnamed", ((PackageElement) element).isUnnamed());
            return;
        } else if (element instanceof TypeElement) {
            printType((TypeElement) element, in);
        } else if (element instanceof ExecutableElement) {
            printExecutable((ExecutableElement) element, in);
        } else if (element instanceof TypeParameterElement) {
            TypeVariable variable = (TypeVariable) element.asType();
            line(in, "bounds", type(variable.getUpperBound()) + " to " + type(variable.getLowerBound()));
        } else {
            Object value = ((VariableElement) element).getConstantValue();
            line(in, "constant", value == null ? "none"
                : value.getClass().getSimpleName() + " " + elements.getConstantExpression(value));
        }
        element.getEnclosedElements().forEach(one -> print(one, in));
    }

    private void printType(TypeElement type, String in) {
        line(in, "names", type.getQualifiedName() + " " + elements.getBinaryName(type) + " "
            + type.getNestingKind());
        line(in, "superclass", type(type.getSuperclass()));
        line(in, "interfaces", all(type.getInterfaces()));
        line(in, "enclosed", type.getEnclosedElements());
        line(in, "direct supertypes", all(types.directSupertypes(type.asType())));
        line(in, "functional", elements.isFunctionalInterface(type));
        List<? extends Element> members = elements.getAllMembers(type);
        line(in, "number of members", new HashSet<>(members).size());
        members.stream().distinct().filter(one -> one.getKind() != ElementKind.CONSTRUCTOR)
            .forEach(one -> line(in, "member " + placed(one),
                type(types.asMemberOf((DeclaredType) type.asType(), one))));
        type.getTypeParameters().forEach(one -> print(one, in));
        for (TypeMirror supertype : types.directSupertypes(type.asType())) {
            if (supertype.getKind() == TypeKind.DECLARED) {
                printRelations(type, (TypeElement) ((DeclaredType) supertype).asElement(), in);
            }
        }
    }

    private void printRelations(TypeElement type, TypeElement supertype, String in) {
        for (Element own : type.getEnclosedElements()) {
            for (Element other : supertype.getEnclosedElements()) {
                if (own.getSimpleName().equals(other.getSimpleName()) && own.getKind() == other.getKind()) {
                    line(in, own + " and " + placed(other), relations(own, other, type));
                }
            }
        }
    }

    private String relations(Element own, Element other, TypeElement in) {
        String hides = "hides " + elements.hides(own, other) + " hidden " + elements.hides(other, own);
        if (own.getKind() != ElementKind.METHOD) {
            return hides;
        }
        ExecutableElement method = (ExecutableElement) own;
        ExecutableElement above = (ExecutableElement) other;
        return hides + " overrides " + elements.overrides(method, above, in) + " overridden "
            + elements.overrides(above, method, in) + " subsignature "
            + types.isSubsignature((ExecutableType) own.asType(), (ExecutableType) other.asType()) + " same "
            + types.isSameType(own.asType(), other.asType());
    }

    private void printExecutable(ExecutableElement executable, String in) {
        line(in, "result", type(executable.getReturnType()));
        line(in, "receiver", executable.getReceiverType());
        line(in, "thrown", all(executable.getThrownTypes()));
        line(in, "variable arguments", executable.isVarArgs());
        line(in, "default", executable.isDefault() + " " + executable.getDefaultValue());
        Stream.concat(executable.getTypeParameters().stream(), executable.getParameters().stream())
            .forEach(one -> print(one, in));
    }

    private String annotations(List<? extends AnnotationMirror> annotations) {
        return annotations.stream().map(one -> one + " "
            + elements.getElementValuesWithDefaults(one).entrySet()
            .stream().map(this::value).collect(Collectors.toList())).collect(Collectors.toList()).toString();
    }

    private String value(Map.Entry<? extends ExecutableElement, ? extends AnnotationValue> entry) {
        Object value = entry.getValue().getValue();
        boolean isPlain = value instanceof Number || value instanceof Character || value instanceof String;
        String type = isPlain ? ":" + value.getClass().getSimpleName() : "";
        return entry.getKey() + "=" + entry.getValue() + type;
    }

    // Types.

    private List<String> all(List<? extends TypeMirror> list) {
        return list.stream().map(this::type).collect(Collectors.toList());
    }

    private String type(TypeMirror type) {
        return type + "(" + type.getKind() + parts(type) + type.getAnnotationMirrors() + ")"
            + (NO_TYPES.contains(type.getKind()) ? "" : more(type));
    }

    private static String parts(TypeMirror type) {
        switch (type.getKind()) {
            case DECLARED:
                TypeMirror enclosing = ((DeclaredType) type).getEnclosingType();
                return " " + ((DeclaredType) type).asElement() + " in " + enclosing + ":"
                    + enclosing.getKind() + " "
                    + ((DeclaredType) type).getTypeArguments().stream().map(one -> one.getKind() + parts(one))
                        .collect(Collectors.toList());
            case ERROR:
                return " " + ((DeclaredType) type).asElement() + " "
                    + ((DeclaredType) type).asElement().getKind();
            case WILDCARD:
                return " " + ((WildcardType) type).getExtendsBound() + " "
                    + ((WildcardType) type).getSuperBound();
            case EXECUTABLE:
                ExecutableType executable = (ExecutableType) type;
                return executable.getTypeVariables() + " " + executable.getParameterTypes() + " "
                    + executable.getThrownTypes() + " " + executable.getReturnType();
            default:
                return "";
        }
    }

    private String more(TypeMirror type) {
        // javac makes up an element for several bounds.
        String text = " erasure " + types.erasure(type) + " element "
            + (type.getKind() == TypeKind.INTERSECTION ? "" : types.asElement(type));
        if (type.getKind() == TypeKind.ERROR) {
            return text;
        }
        TypeMirror object = elements.getTypeElement("java.lang.Object").asType();
        TypeMirror comparable = types.getDeclaredType(elements.getTypeElement("java.lang.Comparable"));
        return text + " below Object " + types.isSubtype(type, object) + " to Comparable "
            + types.isAssignable(type, comparable) + " from int "
            + types.isAssignable(types.getPrimitiveType(TypeKind.INT), type) + " supertypes "
            + types.directSupertypes(type) + " unboxed " + unboxed(type);
    }

    private String unboxed(TypeMirror type) {
        try {
            return types.unboxedType(type).toString();
        } catch (IllegalArgumentException e) {
            return "none";
        }
    }
}
