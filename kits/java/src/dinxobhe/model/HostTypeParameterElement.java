package dinxobhe.model;

import dinxobhe.frames.Info;
import dinxobhe.frames.Ref;
import java.util.List;
import javax.lang.model.element.ElementVisitor;
import javax.lang.model.element.TypeParameterElement;

/** A type parameter of a type, method or constructor. */
final class HostTypeParameterElement extends HostDeclaration implements TypeParameterElement {
    private final HostTypeVariable type;
    private final Kept<List<HostType>> bounds;

    HostTypeParameterElement(Model model, Ref ref, Info info) {
        super(model, ref, info);
        type = new HostTypeVariable(model, this);
        bounds = new Kept<>(model, () -> model.questions().bounds(ref).stream()
            .map(bound -> model.types().of(bound, ref)).collect(JavacList.collector()));
    }

    @Override
    public HostTypeVariable asType() {
        return type;
    }

    @Override
    public HostElement getGenericElement() {
        return getEnclosingElement();
    }

    @Override
    public List<HostType> getBounds() {
        return bounds.get();
    }

    @Override
    public List<HostElement> getEnclosedElements() {
        return JavacList.of(List.of());
    }

    @Override
    public <R, P> R accept(ElementVisitor<R, P> visitor, P parameter) {
        return visitor.visitTypeParameter(this, parameter);
    }
}
