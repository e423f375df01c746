import com.sun.source.util.TreePath;
import com.sun.source.util.Trees;
import java.util.ArrayList;
import java.util.Comparator;
import java.util.HashMap;
import java.util.List;
import java.util.Locale;
import java.util.Map;
import java.util.stream.Collectors;
import javax.lang.model.element.Element;
import javax.lang.model.element.ElementKind;
import javax.lang.model.element.ExecutableElement;
import javax.lang.model.element.PackageElement;
import javax.lang.model.element.Parameterizable;
import javax.lang.model.element.TypeElement;
import javax.lang.model.element.TypeParameterElement;
import javax.lang.model.type.ArrayType;
import javax.lang.model.type.DeclaredType;
import javax.lang.model.type.ExecutableType;
import javax.lang.model.type.TypeMirror;
import javax.lang.model.type.TypeVariable;
import javax.lang.model.type.WildcardType;
import javax.lang.model.util.Elements;

/** Elements and types of javac in the words of the tables {@code type_cases} and {@code value_cases}. Elements have these words in all tables. */
final class ElementWords {
    private final Elements elements;
    private final Trees trees;
    private final Map<TypeElement, List<Element>> members = new HashMap<>();
    private final Map<Element, Integer> steps = new HashMap<>();

    ElementWords(Elements elements, Trees trees) {
        this.elements = elements;
        this.trees = trees;
    }

    /** Whether the language adds the element. */
    boolean isMade(Element of) {
        return elements.getOrigin(of) == Elements.Origin.MANDATED;
    }

    private long place(Element of) {
        TreePath path = isMade(of) ? null : trees.getPath(of);
        if (path == null) {
            return Long.MAX_VALUE;
        }
        return trees.getSourcePositions().getStartPosition(path.getCompilationUnit(), path.getLeaf());
    }

    /**
     * The members in the order in which they are written, and behind them what the language adds: the default constructor, {@code values} and
     * {@code valueOf}. javac has these first, the constructor behind the methods, and types before other members.
     */
    List<Element> members(TypeElement of) {
        return members.computeIfAbsent(of, this::sorted);
    }

    private List<Element> sorted(TypeElement of) {
        List<Element> sorted = new ArrayList<>(of.getEnclosedElements());
        Map<Element, Long> places = new HashMap<>();
        sorted.forEach(each -> places.put(each, place(each)));
        sorted.sort(Comparator.<Element, Long>comparing(places::get)
                .thenComparing(each -> places.get(each) == Long.MAX_VALUE && each.getKind() == ElementKind.METHOD));
        for (int at = 0; at < sorted.size(); at++) {
            steps.put(sorted.get(at), at);
        }
        return sorted;
    }

    private int step(Element of) {
        Element around = of.getEnclosingElement();
        if (of.getKind() == ElementKind.TYPE_PARAMETER) {
            return ((Parameterizable) ((TypeParameterElement) of).getGenericElement()).getTypeParameters().indexOf(of);
        }
        int parameters = ((Parameterizable) around).getTypeParameters().size();
        if (of.getKind() == ElementKind.PARAMETER) {
            return parameters + ((ExecutableElement) around).getParameters().indexOf(of);
        }
        members((TypeElement) around);
        return parameters + steps.get(of);
    }

    /** An element: its unit and the steps of its path. */
    String element(Element of) {
        if (of.getKind() == ElementKind.PACKAGE) {
            String name = ((PackageElement) of).getQualifiedName().toString();
            return name.isEmpty() ? "package-info" : name + ".package-info";
        }
        if (of instanceof TypeElement && of.getEnclosingElement().getKind() == ElementKind.PACKAGE) {
            return ((TypeElement) of).getQualifiedName().toString();
        }
        Element around = of.getKind() == ElementKind.TYPE_PARAMETER ? ((TypeParameterElement) of).getGenericElement() : of.getEnclosingElement();
        return element(around) + ":" + step(of);
    }

    private String several(List<? extends TypeMirror> types) {
        return types.stream().map(this::type).collect(Collectors.joining(","));
    }

    /** A type. */
    String type(TypeMirror type) {
        switch (type.getKind()) {
            case ARRAY:
                return type(((ArrayType) type).getComponentType()) + "[]";
            case DECLARED:
                List<? extends TypeMirror> arguments = ((DeclaredType) type).getTypeArguments();
                return element(((DeclaredType) type).asElement()) + (arguments.isEmpty() ? "" : "<" + several(arguments) + ">");
            case TYPEVAR:
                return "variable(" + element(((TypeVariable) type).asElement()) + ")";
            case WILDCARD:
                TypeMirror below = ((WildcardType) type).getSuperBound();
                TypeMirror above = ((WildcardType) type).getExtendsBound();
                return below != null ? "?super/" + type(below) : above != null ? "?extends/" + type(above) : "?";
            case EXECUTABLE:
                ExecutableType method = (ExecutableType) type;
                String variables = method.getTypeVariables().stream().map(each -> element(each.asElement())).collect(Collectors.joining(","));
                return "executable(" + variables + ";" + several(method.getParameterTypes()) + ";" + type(method.getReturnType()) + ";"
                        + several(method.getThrownTypes()) + ")";
            case NONE:
                return "nothing";
            default:
                return type.getKind().name().toLowerCase(Locale.ROOT);
        }
    }
}
