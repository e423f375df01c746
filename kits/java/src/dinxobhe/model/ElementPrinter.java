package dinxobhe.model;

import java.io.PrintWriter;
import java.util.EnumSet;
import java.util.List;
import java.util.Locale;
import java.util.Set;
import java.util.StringTokenizer;
import java.util.stream.Collectors;
import java.util.stream.Stream;
import javax.lang.model.element.Element;
import javax.lang.model.element.ElementKind;
import javax.lang.model.element.Modifier;
import javax.lang.model.element.NestingKind;

/** Prints declarations for a reader, in the form that javac prints them. */
final class ElementPrinter {
    private static final String INDENT = "  ";

    private final HostElements elements;
    private final PrintWriter to;
    private int depth;

    ElementPrinter(HostElements elements, PrintWriter to) {
        this.elements = elements;
        this.to = to;
    }

    void print(Element element) {
        if (element instanceof HostTypeElement) {
            printType((HostTypeElement) element);
        } else if (element instanceof HostExecutableElement) {
            printExecutable((HostExecutableElement) element);
        } else if (element instanceof HostVariableElement) {
            printVariable((HostVariableElement) element);
        } else if (element instanceof HostPackageElement) {
            printPackage((HostPackageElement) element);
        } else {
            to.print(element.getSimpleName());
        }
    }

    private void indent() {
        to.print(INDENT.repeat(depth));
    }

    private void printPackage(HostPackageElement element) {
        printFront(element);
        to.println(element.isUnnamed() ? "// Unnamed package" : "package " + element + ";");
    }

    // Types.

    private void printType(HostTypeElement type) {
        HostPackageElement around = type.model().packageOf(type.ref());
        if (type.getNestingKind() == NestingKind.TOP_LEVEL && !around.isUnnamed()) {
            to.println("package " + around + ";");
        }
        to.println();
        printFront(type);
        to.println(keyword(type) + " " + type.getSimpleName() + variables(type.getTypeParameters())
            + superclass(type) + interfaces(type) + " {");
        depth++;
        List<HostDeclaration> constants = type.getEnclosedElements().stream()
            .filter(one -> one.getKind() == ElementKind.ENUM_CONSTANT).collect(Collectors.toList());
        printConstants(constants);
        type.getEnclosedElements().stream().filter(one -> !constants.contains(one)).forEach(this::print);
        depth--;
        indent();
        to.println("}");
    }

    private static String keyword(HostTypeElement type) {
        return type.getKind() == ElementKind.ANNOTATION_TYPE ? "@interface"
            : type.getKind().toString().toLowerCase(Locale.ROOT);
    }

    private static String variables(List<HostTypeParameterElement> parameters) {
        return parameters.isEmpty() ? "" : parameters.stream().map(Object::toString)
            .collect(Collectors.joining(", ", "<", ">"));
    }

    /** The superclass of a class, where that is not java.lang.Object. */
    private static String superclass(HostTypeElement type) {
        HostType superclass = type.getSuperclass();
        boolean isObject = superclass instanceof HostDeclaredType
            && ((HostDeclaredType) superclass).asElement().isObject();
        boolean isThere = type.getKind() == ElementKind.CLASS && !(superclass instanceof HostNoType);
        return isThere && !isObject ? " extends " + superclass : "";
    }

    private static String interfaces(HostTypeElement type) {
        if (type.getKind() == ElementKind.ANNOTATION_TYPE || type.getInterfaces().isEmpty()) {
            return "";
        }
        return type.getInterfaces().stream().map(Object::toString).collect(
            Collectors.joining(", ", type.getKind().isClass() ? " implements " : " extends ", ""));
    }

    private void printConstants(List<HostDeclaration> constants) {
        for (int i = 0; i < constants.size(); i++) {
            to.println();
            printFront(constants.get(i));
            to.print(constants.get(i).getSimpleName() + (i + 1 < constants.size() ? "," : ""));
        }
        if (!constants.isEmpty()) {
            to.println(";");
            to.println();
        }
    }

    // Members.

    private void printExecutable(HostExecutableElement executable) {
        to.println();
        printFront(executable);
        String variables = variables(executable.getTypeParameters());
        to.print(variables + (variables.isEmpty() ? "" : " "));
        if (executable.getKind() == ElementKind.CONSTRUCTOR) {
            to.print(executable.getEnclosingElement().getSimpleName());
        } else {
            to.print(executable.getReturnType() + " " + executable.getSimpleName());
        }
        to.print(parameters(executable));
        if (executable.getDefaultValue() != null) {
            to.print(" default " + executable.getDefaultValue());
        }
        List<?> thrown = executable.getThrownTypes();
        to.print(thrown.isEmpty() ? "" : " throws " + lines(", ", thrown));
        to.println(";");
    }

    private String parameters(HostExecutableElement executable) {
        List<HostVariableElement> parameters = executable.getParameters();
        int last = parameters.size() - 1;
        return "(" + lines(",", parameters.stream().map(one -> inlineAnnotations(one) + modifiers(one)
            + (executable.isVarArgs() && one == parameters.get(last) ? dotted(one.asType()) : one.asType())
            + " " + one).collect(Collectors.toList())) + ")";
    }

    /** What stands in a list, each but the first on a line of its own. */
    private String lines(String end, List<?> list) {
        return list.stream().map(Object::toString)
            .collect(Collectors.joining(end + System.lineSeparator() + INDENT.repeat(depth + 1)));
    }

    /** The type of the last parameter of a variable number. */
    private static String dotted(HostType array) {
        return ((HostArrayType) array).getComponentType() + "...";
    }

    private void printVariable(HostVariableElement variable) {
        printFront(variable);
        if (variable.getKind() == ElementKind.ENUM_CONSTANT) {
            to.print(variable.getSimpleName());
            return;
        }
        Object value = variable.getConstantValue();
        to.println(variable.asType() + " " + variable + (value == null ? "" : " = " + JavacLiterals.of(value))
            + ";");
    }

    // What stands before a declaration.

    private void printFront(HostElement element) {
        printComment(element);
        if (element.getKind() == ElementKind.PARAMETER) {
            to.print(inlineAnnotations(element));
        } else {
            for (String annotation : annotations(element)) {
                indent();
                to.println(annotation);
            }
            indent();
        }
        to.print(modifiers(element));
    }

    private void printComment(HostElement element) {
        String comment = elements.getDocComment(element);
        if (comment == null) {
            return;
        }
        indent();
        to.println("/**");
        for (StringTokenizer lines = new StringTokenizer(comment, "\n\r"); lines.hasMoreTokens();) {
            indent();
            to.println(" *" + lines.nextToken());
        }
        indent();
        to.println(" */");
    }

    private static String inlineAnnotations(HostElement element) {
        return annotations(element).stream().map(one -> one + " ").collect(Collectors.joining());
    }

    /** The annotations of an element, those that are repeated one by one. */
    private static List<String> annotations(HostElement element) {
        return element.getAnnotationMirrors().stream().map(HostAnnotationMirror.class::cast)
            .flatMap(one -> one.isWritten() ? Stream.of(one) : one.held().stream())
            .map(Object::toString).collect(Collectors.toList());
    }

    private static String modifiers(HostElement element) {
        Set<Modifier> said = EnumSet.noneOf(Modifier.class);
        said.addAll(element.getModifiers());
        said.removeAll(unsaid(element));
        return said.stream().map(one -> one + " ").collect(Collectors.joining());
    }

    /** The modifiers that are not printed, as most of them go without saying. */
    private static Set<Modifier> unsaid(HostElement element) {
        switch (element.getKind()) {
            case ENUM_CONSTANT:
                return EnumSet.allOf(Modifier.class);
            case ANNOTATION_TYPE:
            case INTERFACE:
                return Set.of(Modifier.ABSTRACT);
            case ENUM:
                return Set.of(Modifier.FINAL, Modifier.ABSTRACT);
            case METHOD:
            case FIELD:
                return element.getEnclosingElement().getKind().isInterface()
                    ? Set.of(Modifier.PUBLIC, Modifier.ABSTRACT, Modifier.STATIC, Modifier.FINAL) : Set.of();
            default:
                return Set.of();
        }
    }
}
