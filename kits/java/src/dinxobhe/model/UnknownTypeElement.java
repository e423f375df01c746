package dinxobhe.model;

import dinxobhe.frames.Ref;
import java.lang.annotation.Annotation;
import java.util.List;
import java.util.Set;
import javax.lang.model.element.AnnotationMirror;
import javax.lang.model.element.Element;
import javax.lang.model.element.ElementKind;
import javax.lang.model.element.ElementVisitor;
import javax.lang.model.element.Modifier;
import javax.lang.model.element.Name;
import javax.lang.model.element.NestingKind;
import javax.lang.model.element.TypeElement;
import javax.lang.model.element.TypeParameterElement;
import javax.lang.model.type.TypeMirror;

/** Stands for the declaration of a type that the host doesn't know: a public class without members. */
final class UnknownTypeElement implements TypeElement {
    private final Model model;
    private final HostErrorType type;
    private final String name;

    UnknownTypeElement(Model model, HostErrorType type, String name) {
        this.model = model;
        this.type = type;
        this.name = name;
    }

    @Override
    public TypeMirror asType() {
        return type;
    }

    @Override
    public ElementKind getKind() {
        return ElementKind.CLASS;
    }

    @Override
    public NestingKind getNestingKind() {
        return NestingKind.TOP_LEVEL;
    }

    @Override
    public Set<Modifier> getModifiers() {
        return Set.of(Modifier.PUBLIC, Modifier.STATIC);
    }

    @Override
    public Name getSimpleName() {
        return new HostName(name.substring(name.lastIndexOf('.') + 1));
    }

    @Override
    public Name getQualifiedName() {
        return new HostName(name);
    }

    @Override
    public TypeMirror getSuperclass() {
        return model.types().none();
    }

    @Override
    public List<? extends TypeMirror> getInterfaces() {
        return List.of();
    }

    @Override
    public List<? extends TypeParameterElement> getTypeParameters() {
        return List.of();
    }

    @Override
    public Element getEnclosingElement() {
        return model.packageOf(Ref.ofUnit(name));
    }

    @Override
    public List<? extends Element> getEnclosedElements() {
        return List.of();
    }

    @Override
    public List<? extends AnnotationMirror> getAnnotationMirrors() {
        return List.of();
    }

    @Override
    public <A extends Annotation> A getAnnotation(Class<A> annotation) {
        return null;
    }

    @Override
    public <A extends Annotation> A[] getAnnotationsByType(Class<A> annotation) {
        return AnnotationProxies.all(List.of(), List.of(), annotation);
    }

    @Override
    public <R, P> R accept(ElementVisitor<R, P> visitor, P parameter) {
        return visitor.visitType(this, parameter);
    }

    @Override
    public boolean equals(Object other) {
        return other instanceof UnknownTypeElement && type.equals(((UnknownTypeElement) other).type);
    }

    @Override
    public int hashCode() {
        return type.hashCode();
    }

    @Override
    public String toString() {
        return name;
    }
}
