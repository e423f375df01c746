package dinxobhe.model;

import dinxobhe.frames.Ref;
import java.util.ArrayList;
import java.util.Collection;
import java.util.LinkedHashSet;
import java.util.List;
import java.util.Optional;
import java.util.Set;
import java.util.function.Predicate;
import java.util.stream.Collectors;
import javax.lang.model.element.Element;
import javax.lang.model.element.TypeElement;
import javax.lang.model.util.ElementFilter;

/**
 * Which annotations are present on elements for javac. For the host each one is that is written before a
 * declaration; for javac those that are repeated are one in which they are contained, and some are those of a
 * type.
 */
final class Presence {
    private final Model model;

    Presence(Model model) {
        this.model = model;
    }

    Set<TypeElement> offered(List<String> names, Predicate<String> isSupported) {
        Set<TypeElement> offered = new LinkedHashSet<>();
        for (String name : names) {
            Optional<HostTypeElement> type = model.typeElement(name);
            type.filter(one -> !mayDiffer(one) || !annotatedWith(one).isEmpty()).ifPresent(offered::add);
            type.flatMap(one -> DeclaredAnnotations.container(one.asType())).map(HostDeclaredType::asElement)
                .filter(one -> isSupported.test(one.getQualifiedName().toString()))
                .filter(one -> !annotatedWith(one).isEmpty()).ifPresent(offered::add);
        }
        return offered;
    }

    /** The elements on which one of some annotations is present, in the order of javac. */
    List<Element> annotatedWithAny(Collection<HostTypeElement> annotations) {
        return new RootOrder(model).of(annotations.stream().flatMap(one -> annotatedWith(one).stream())
            .distinct().collect(Collectors.toList()));
    }

    /** The elements on which an annotation is present. */
    private List<HostElement> annotatedWith(HostTypeElement annotation) {
        List<Ref> refs = new ArrayList<>(annotatedBy(annotation));
        Optional<HostTypeElement> contained = contained(annotation);
        contained.ifPresent(one -> refs.addAll(annotatedBy(one)));
        List<HostElement> elements = model.elements(refs, HostElement.class);
        boolean isSure = contained.isEmpty() && !mayDiffer(annotation);
        return elements.stream().filter(one -> isSure || isPresent(annotation, one))
            .collect(Collectors.toList());
    }

    private List<Ref> annotatedBy(HostTypeElement annotation) {
        return model.questions().annotatedWith(annotation.getQualifiedName().toString());
    }

    /** Whether an annotation of the type may not be present where it is written. */
    private static boolean mayDiffer(HostTypeElement annotation) {
        return DeclaredAnnotations.container(annotation.asType()).isPresent()
            || DeclaredAnnotations.targets(annotation.asType()).orElse(Set.of()).contains("TYPE_USE");
    }

    private static boolean isPresent(HostTypeElement annotation, HostElement element) {
        return element.presentAnnotations().stream()
            .anyMatch(one -> one.getAnnotationType().asElement().equals(annotation));
    }

    /** The annotations that one of this type is to contain, if it is for that. */
    private static Optional<HostTypeElement> contained(HostTypeElement annotation) {
        return ElementFilter.methodsIn(annotation.getEnclosedElements()).stream()
            .filter(method -> method.getSimpleName().contentEquals("value"))
            .map(method -> method.getReturnType()).filter(type -> type instanceof HostArrayType)
            .map(type -> ((HostArrayType) type).getComponentType())
            .filter(type -> type instanceof HostDeclaredType).map(HostDeclaredType.class::cast)
            .filter(type -> DeclaredAnnotations.container(type)
                .filter(container -> container.asElement().equals(annotation)).isPresent())
            .map(HostDeclaredType::asElement).findFirst();
    }
}
