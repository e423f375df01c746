package dinxobhe.model;

import dinxobhe.frames.Ref;
import java.lang.annotation.Annotation;
import java.util.List;
import javax.lang.model.element.AnnotationMirror;
import javax.lang.model.element.Element;
import javax.lang.model.element.Name;

/** An element of the host. Two are equal where their refs are. */
abstract class HostElement implements Element {
    private final Model model;
    private final Ref ref;
    private final Kept<DeclaredAnnotations> annotations;

    HostElement(Model model, Ref ref) {
        this.model = model;
        this.ref = ref;
        annotations = new Kept<>(model, () -> DeclaredAnnotations.of(this));
    }

    Model model() {
        return model;
    }

    Ref ref() {
        return ref;
    }

    /** The annotations that are written before the declaration. */
    DeclaredAnnotations declaredAnnotations() {
        return annotations.get();
    }

    @Override
    public abstract HostType asType();

    @Override
    public abstract List<? extends HostElement> getEnclosedElements();

    @Override
    public abstract HostElement getEnclosingElement();

    @Override
    public List<? extends AnnotationMirror> getAnnotationMirrors() {
        return annotations.get().ofElement();
    }

    /** The annotations of which a class has those that are inherited. */
    List<? extends AnnotationMirror> presentAnnotations() {
        return getAnnotationMirrors();
    }

    @Override
    public <A extends Annotation> A getAnnotation(Class<A> type) {
        return AnnotationProxies.one(presentAnnotations(), type);
    }

    @Override
    public <A extends Annotation> A[] getAnnotationsByType(Class<A> type) {
        return AnnotationProxies.all(getAnnotationMirrors(), presentAnnotations(), type);
    }

    static Name name(String text) {
        return new HostName(text);
    }

    @Override
    public boolean equals(Object other) {
        return other instanceof HostElement && ref.equals(((HostElement) other).ref);
    }

    @Override
    public int hashCode() {
        return ref.hashCode();
    }

    @Override
    public String toString() {
        return getSimpleName().toString();
    }
}
