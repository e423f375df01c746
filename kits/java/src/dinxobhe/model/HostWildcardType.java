package dinxobhe.model;

import dinxobhe.frames.Mirror;
import java.util.Optional;
import javax.lang.model.type.TypeKind;
import javax.lang.model.type.TypeVisitor;
import javax.lang.model.type.WildcardType;

/** A wildcard as a type argument. */
final class HostWildcardType extends HostType implements WildcardType {
    private final Mirror.Bound bound;
    private final Optional<HostType> of;

    HostWildcardType(Model model, Mirror.Bound bound, Optional<HostType> of) {
        super(model);
        this.bound = bound;
        this.of = of;
    }

    @Override
    Mirror mirror() {
        return Mirror.wildcard(bound, of.map(HostType::mirror));
    }

    @Override
    HostType copy() {
        return with(of);
    }

    HostWildcardType with(Optional<HostType> newBound) {
        return new HostWildcardType(model(), bound, newBound);
    }

    Optional<HostType> bound() {
        return of;
    }

    @Override
    public TypeKind getKind() {
        return TypeKind.WILDCARD;
    }

    @Override
    public HostType getExtendsBound() {
        return bound == Mirror.Bound.EXTENDS ? of.orElseThrow() : null;
    }

    @Override
    public HostType getSuperBound() {
        return bound == Mirror.Bound.SUPER ? of.orElseThrow() : null;
    }

    @Override
    public <R, P> R accept(TypeVisitor<R, P> visitor, P parameter) {
        return visitor.visitWildcard(this, parameter);
    }

    @Override
    public boolean equals(Object object) {
        if (!(object instanceof HostWildcardType)) {
            return false;
        }
        HostWildcardType other = (HostWildcardType) object;
        return bound == other.bound && of.equals(other.of);
    }

    @Override
    public int hashCode() {
        return 31 * of.hashCode() + bound.hashCode();
    }

    @Override
    public String toString() {
        String written = of.isEmpty() ? "?" : bound == Mirror.Bound.EXTENDS ? "? extends " : "? super ";
        return annotationTexts() + written + of.map(Object::toString).orElse("");
    }
}
