package dinxobhe.model;

import dinxobhe.frames.Mirror;
import java.lang.annotation.Annotation;
import java.util.List;
import java.util.stream.Collectors;
import javax.lang.model.element.AnnotationMirror;
import javax.lang.model.type.TypeMirror;

/** A type of the host. Two are equal where all that they consist of is, annotations aside. */
abstract class HostType implements TypeMirror {
    private final Model model;
    private List<AnnotationMirror> annotations = JavacList.of(List.of());

    HostType(Model model) {
        this.model = model;
    }

    Model model() {
        return model;
    }

    /** The type as the host spells it. */
    abstract Mirror mirror();

    /** The same type without annotations, as a new object. */
    abstract HostType copy();

    final HostType withAnnotations(List<AnnotationMirror> written) {
        HostType annotated = copy();
        annotated.annotations = JavacList.of(written);
        return annotated;
    }

    @Override
    public List<AnnotationMirror> getAnnotationMirrors() {
        return annotations;
    }

    @Override
    public <A extends Annotation> A getAnnotation(Class<A> type) {
        return AnnotationProxies.one(annotations, type);
    }

    @Override
    public <A extends Annotation> A[] getAnnotationsByType(Class<A> type) {
        return AnnotationProxies.all(annotations, annotations, type);
    }

    /** The annotations as they stand before the type. */
    String annotationTexts() {
        return annotations.stream().map(one -> one + " ").collect(Collectors.joining());
    }

    static String joined(List<? extends TypeMirror> types) {
        return types.stream().map(Object::toString).collect(Collectors.joining(","));
    }

    static List<Mirror> mirrors(List<? extends HostType> types) {
        return types.stream().map(HostType::mirror).collect(Collectors.toList());
    }

    @Override
    public abstract boolean equals(Object other);

    @Override
    public abstract int hashCode();
}
