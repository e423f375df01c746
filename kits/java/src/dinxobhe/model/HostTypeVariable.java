package dinxobhe.model;

import dinxobhe.frames.Mirror;
import java.util.List;
import javax.lang.model.type.TypeKind;
import javax.lang.model.type.TypeVariable;
import javax.lang.model.type.TypeVisitor;

/** The type of a type parameter. */
final class HostTypeVariable extends HostType implements TypeVariable {
    private final HostTypeParameterElement element;

    HostTypeVariable(Model model, HostTypeParameterElement element) {
        super(model);
        this.element = element;
    }

    @Override
    Mirror mirror() {
        return Mirror.variable(element.ref());
    }

    @Override
    HostType copy() {
        return new HostTypeVariable(model(), element);
    }

    @Override
    public TypeKind getKind() {
        return TypeKind.TYPEVAR;
    }

    @Override
    public HostTypeParameterElement asElement() {
        return element;
    }

    @Override
    public HostType getUpperBound() {
        List<HostType> bounds = element.getBounds();
        return bounds.size() == 1 ? bounds.get(0) : new HostIntersectionType(model(), bounds);
    }

    @Override
    public HostType getLowerBound() {
        return new HostNullType(model());
    }

    @Override
    public <R, P> R accept(TypeVisitor<R, P> visitor, P parameter) {
        return visitor.visitTypeVariable(this, parameter);
    }

    @Override
    public boolean equals(Object other) {
        return other instanceof HostTypeVariable && element.equals(((HostTypeVariable) other).element);
    }

    @Override
    public int hashCode() {
        return element.hashCode() + 1;
    }

    @Override
    public String toString() {
        return annotationTexts() + element;
    }
}
