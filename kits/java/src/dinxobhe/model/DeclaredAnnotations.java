package dinxobhe.model;

import dinxobhe.frames.NamedValue;
import dinxobhe.frames.Ref;
import dinxobhe.frames.Value;
import dinxobhe.frames.WrittenAnnotation;
import java.util.ArrayList;
import java.util.LinkedHashMap;
import java.util.List;
import java.util.Map;
import java.util.Optional;
import java.util.Set;
import java.util.stream.Collectors;
import java.util.stream.Stream;
import javax.lang.model.element.AnnotationMirror;
import javax.lang.model.type.TypeMirror;

/**
 * The annotations that are written before a declaration. Those of a type that is for uses of types are its
 * type's, and several of one type are one of the type that is to contain them.
 */
final class DeclaredAnnotations {
    private static final String TARGET = "java.lang.annotation.Target";
    private static final String REPEATABLE = "java.lang.annotation.Repeatable";

    private final List<AnnotationMirror> ofElement;
    private final List<AnnotationMirror> ofType;

    private DeclaredAnnotations(List<AnnotationMirror> ofElement, List<AnnotationMirror> ofType) {
        this.ofElement = JavacList.of(ofElement);
        this.ofType = JavacList.of(ofType);
    }

    static DeclaredAnnotations of(HostElement element) {
        List<AnnotationMirror> ofElement = new ArrayList<>();
        List<AnnotationMirror> ofType = new ArrayList<>();
        Model model = element.model();
        List<HostAnnotationMirror> written = model.questions().annotations(element.ref()).stream()
            .map(one -> HostAnnotationMirror.of(model, one, element.ref())).collect(Collectors.toList());
        for (HostAnnotationMirror annotation : contained(written)) {
            Optional<Set<String>> targets = hasType(element) ? targets(annotation.type()) : Optional.empty();
            boolean isForTypes = targets.isPresent() && targets.get().contains("TYPE_USE");
            if (isForTypes) {
                ofType.add(annotation);
            }
            // The targets of these declarations have the names of their kinds.
            if (!isForTypes || targets.get().contains(element.getKind().name())) {
                ofElement.add(annotation);
            }
        }
        return new DeclaredAnnotations(ofElement, ofType);
    }

    /** Whether a type stands right behind the annotations. */
    private static boolean hasType(HostElement element) {
        switch (element.getKind()) {
            case METHOD:
            case CONSTRUCTOR:
            case FIELD:
            case PARAMETER:
                return true;
            default:
                return false;
        }
    }

    // Annotations of annotation interfaces.

    private static Optional<WrittenAnnotation> meta(HostType type, String name) {
        if (!(type instanceof HostDeclaredType)) {
            return Optional.empty();
        }
        HostTypeElement element = ((HostDeclaredType) type).asElement();
        return element.metaAnnotations().stream()
            .filter(one -> Ref.ofUnit(name).equals(one.type().element())).findFirst();
    }

    /** The names of the targets that a type of annotations has, where it says any. */
    static Optional<Set<String>> targets(HostType type) {
        return meta(type, TARGET).map(target -> target.values().stream().map(NamedValue::value)
            .flatMap(value -> value.kind() == Value.Kind.ARRAY ? value.items().stream() : Stream.of(value))
            .filter(value -> value.kind() == Value.Kind.CONSTANT)
            .map(value -> type.model().element(value.element()).getSimpleName().toString())
            .collect(Collectors.toSet()));
    }

    /** The type that is to contain annotations of a type, where that can be repeated. */
    static Optional<HostDeclaredType> container(HostType type) {
        return meta(type, REPEATABLE).flatMap(repeatable -> repeatable.values().stream()
            .map(NamedValue::value).filter(value -> value.kind() == Value.Kind.CLASS).findFirst())
            .map(value -> type.model().types().of(value.type(), null))
            .filter(container -> container instanceof HostDeclaredType).map(HostDeclaredType.class::cast);
    }

    /** The annotations with those that are repeated in one that contains them, at the place of the first. */
    private static List<HostAnnotationMirror> contained(List<HostAnnotationMirror> written) {
        Map<TypeMirror, List<AnnotationMirror>> byType = new LinkedHashMap<>();
        written.forEach(one -> byType.computeIfAbsent(one.type(), key -> new ArrayList<>()).add(one));
        if (byType.size() == written.size()) {
            return written;
        }
        List<HostAnnotationMirror> all = new ArrayList<>();
        for (Map.Entry<TypeMirror, List<AnnotationMirror>> same : byType.entrySet()) {
            HostType type = (HostType) same.getKey();
            Optional<HostDeclaredType> container =
                same.getValue().size() == 1 ? Optional.empty() : container(type);
            if (container.isPresent()) {
                all.add(HostAnnotationMirror.containing(type.model(), container.get(), same.getValue()));
            } else {
                same.getValue().forEach(one -> all.add((HostAnnotationMirror) one));
            }
        }
        return all;
    }

    List<AnnotationMirror> ofElement() {
        return ofElement;
    }

    /** A declaration's type with the annotations that are for it; of an array its item has them. */
    HostType onto(HostType type) {
        if (ofType.isEmpty() || type instanceof HostNoType) {
            return type;
        }
        if (type instanceof HostArrayType) {
            return new HostArrayType(type.model(), onto(((HostArrayType) type).getComponentType()));
        }
        return type.withAnnotations(ofType);
    }
}
