import java.nio.charset.StandardCharsets;
import java.util.ArrayList;
import java.util.Collection;
import java.util.List;
import java.util.Locale;
import java.util.Map;
import java.util.Set;
import java.util.function.Function;
import java.util.stream.Collectors;
import javax.lang.model.element.AnnotationMirror;
import javax.lang.model.element.AnnotationValue;
import javax.lang.model.element.Element;
import javax.lang.model.element.ElementKind;
import javax.lang.model.element.ExecutableElement;
import javax.lang.model.element.Modifier;
import javax.lang.model.element.PackageElement;
import javax.lang.model.element.QualifiedNameable;
import javax.lang.model.element.VariableElement;
import javax.lang.model.type.ArrayType;
import javax.lang.model.type.DeclaredType;
import javax.lang.model.type.ExecutableType;
import javax.lang.model.type.IntersectionType;
import javax.lang.model.type.TypeKind;
import javax.lang.model.type.TypeMirror;
import javax.lang.model.type.TypeVariable;
import javax.lang.model.type.WildcardType;
import javax.lang.model.util.SimpleAnnotationValueVisitor9;

/** Elements, types and values of javac, and whole replies, in the words of the table {@code answer_cases}. */
final class ReplyWords {
    private static final String ESCAPED = " #%&'/\\^`~";
    private static final String ESCAPED_IN_VALUES = ESCAPED + ";)]";

    private final ElementWords elements;

    ReplyWords(ElementWords elements) {
        this.elements = elements;
    }

    String element(Element of) {
        return elements.element(of);
    }

    // ---- texts

    private static String escaped(String text, String escapes) {
        StringBuilder escaped = new StringBuilder();
        for (byte each : text.getBytes(StandardCharsets.UTF_8)) {
            if (each < ' ' || each > '~' || escapes.indexOf(each) >= 0) {
                escaped.append(String.format("%%%02X", each));
            } else {
                escaped.append((char) each);
            }
        }
        return escaped.toString();
    }

    /** A text. */
    static String text(CharSequence of) {
        return of.length() == 0 ? "-" : escaped(of.toString(), ESCAPED);
    }

    private static String textInValue(Object of) {
        String text = of.toString();
        return text.isEmpty() ? "-" : escaped(text, ESCAPED_IN_VALUES);
    }

    // ---- types, from the outside in

    /** A type. A class type has an enclosing type where javac's has type arguments. An intersection, which the table has not, is written as its bounds. */
    String mirror(TypeMirror of) {
        switch (of.getKind()) {
            case ARRAY:
                return "[]/" + mirror(((ArrayType) of).getComponentType());
            case DECLARED:
                return declared((DeclaredType) of);
            case TYPEVAR:
                return "variable=" + element(((TypeVariable) of).asElement());
            case WILDCARD:
                return wildcard((WildcardType) of);
            case EXECUTABLE:
                return executable((ExecutableType) of);
            case NONE:
                return "nothing";
            case PACKAGE:
                return "package=" + of;
            case ERROR:
                return "error=" + text(of.toString());
            case INTERSECTION:
                List<? extends TypeMirror> bounds = ((IntersectionType) of).getBounds();
                return "intersection<" + bounds.size() + behind(bounds);
            default:
                return of.getKind().name().toLowerCase(Locale.ROOT);
        }
    }

    private String behind(List<? extends TypeMirror> types) {
        return types.stream().map(each -> "/" + mirror(each)).collect(Collectors.joining());
    }

    private static boolean hasArguments(TypeMirror of) {
        if (of.getKind() != TypeKind.DECLARED) {
            return false;
        }
        DeclaredType declared = (DeclaredType) of;
        return !declared.getTypeArguments().isEmpty() || hasArguments(declared.getEnclosingType());
    }

    private String declared(DeclaredType of) {
        List<? extends TypeMirror> arguments = of.getTypeArguments();
        String name = element(of.asElement()) + (arguments.isEmpty() ? "" : "<" + arguments.size());
        boolean isWithin = hasArguments(of.getEnclosingType());
        return (isWithin ? "within=" : "") + name + (isWithin ? "/" + mirror(of.getEnclosingType()) : "") + behind(arguments);
    }

    private String wildcard(WildcardType of) {
        if (of.getExtendsBound() != null) {
            return "?extends/" + mirror(of.getExtendsBound());
        }
        return of.getSuperBound() != null ? "?super/" + mirror(of.getSuperBound()) : "?";
    }

    private String executable(ExecutableType of) {
        String variables = of.getTypeVariables().stream().map(each -> element(each.asElement())).collect(Collectors.joining("+"));
        List<? extends TypeMirror> parameters = of.getParameterTypes();
        List<? extends TypeMirror> thrown = of.getThrownTypes();
        return "executable=" + (variables.isEmpty() ? "-" : variables) + "<" + parameters.size() + "<" + thrown.size() + behind(parameters) + "/"
                + mirror(of.getReturnType()) + behind(thrown);
    }

    // ---- values

    /** A value. Numbers that the table has not are {@code byte:7}, {@code short:7}, {@code float:1.5} and {@code double:1.5}. */
    String value(AnnotationValue of) {
        return of.accept(new SimpleAnnotationValueVisitor9<String, Void>() {
            @Override
            protected String defaultAction(Object constant, Void none) {
                return constant(constant);
            }

            @Override
            public String visitType(TypeMirror type, Void none) {
                return "class:" + mirror(type);
            }

            @Override
            public String visitEnumConstant(VariableElement constant, Void none) {
                return "constant:" + element(constant);
            }

            @Override
            public String visitAnnotation(AnnotationMirror mirror, Void none) {
                return annotation(mirror);
            }

            @Override
            public String visitArray(List<? extends AnnotationValue> items, Void none) {
                return items.stream().map(each -> value(each)).collect(Collectors.joining(";", "array[", "]"));
            }
        }, null);
    }

    /** A constant. */
    static String constant(Object of) {
        if (of instanceof Boolean) {
            return of.toString();
        }
        if (of instanceof String) {
            return "text:" + textInValue(of);
        }
        if (of instanceof Character) {
            return "char:" + (int) (Character) of;
        }
        String kind = of.getClass().getSimpleName();
        return (of instanceof Integer ? "int" : kind.toLowerCase(Locale.ROOT)) + ":" + of;
    }

    private List<String> pairs(Map<? extends ExecutableElement, ? extends AnnotationValue> values) {
        return values.entrySet().stream().map(each -> each.getKey().getSimpleName() + "=" + value(each.getValue())).collect(Collectors.toList());
    }

    private String annotation(AnnotationMirror of) {
        return "@" + mirror(of.getAnnotationType()) + "(" + String.join(";", pairs(of.getElementValues())) + ")";
    }

    // ---- replies

    private static <T> String reply(String frame, Collection<T> items, Function<? super T, String> word) {
        return frame + (items.isEmpty() ? " none" : items.stream().map(each -> " " + word.apply(each)).collect(Collectors.joining()));
    }

    String elements(Collection<? extends Element> of) {
        return reply("elements", of, this::element);
    }

    String mirrors(Collection<? extends TypeMirror> of) {
        return reply("mirrors", of, this::mirror);
    }

    String annotations(Collection<? extends AnnotationMirror> of) {
        return reply("annotations", of, this::annotation);
    }

    String values(Map<? extends ExecutableElement, ? extends AnnotationValue> of) {
        return reply("values", pairs(of), each -> each);
    }

    /** A value without a name, which may be null. */
    static String unnamed(String value) {
        return value == null ? "values none" : "values =" + value;
    }

    /** A text, which may be null. The text {@code none} is written so that it is no empty list. */
    static String texts(String of) {
        if (of == null) {
            return "texts none";
        }
        return "texts " + (of.equals("none") ? "%6Eone" : text(of));
    }

    static String truth(boolean of) {
        return of ? "truth yes" : "truth no";
    }

    /** What an element is. */
    static String info(Element of) {
        Set<Modifier> modifiers = of.getModifiers();
        List<String> words = new ArrayList<>();
        for (Modifier each : Modifier.values()) {
            if (modifiers.contains(each)) {
                words.add(each.toString());
            }
        }
        boolean isNamed = of.getKind() == ElementKind.PACKAGE || of.getKind().isClass() || of.getKind().isInterface();
        String canonical = isNamed ? ((QualifiedNameable) of).getQualifiedName().toString() : "";
        String simple = of instanceof PackageElement && ((PackageElement) of).isUnnamed() ? "" : of.getSimpleName().toString();
        boolean isVarArgs = of instanceof ExecutableElement && ((ExecutableElement) of).isVarArgs();
        return "info " + of.getKind().name().toLowerCase(Locale.ROOT) + " " + (words.isEmpty() ? "none" : String.join("+", words)) + " " + text(simple)
                + " " + text(canonical) + " " + (isVarArgs ? "varargs" : "fixed");
    }
}
