package dinxobhe.model;

import dinxobhe.frames.Mirror;
import javax.lang.model.type.NullType;
import javax.lang.model.type.TypeKind;
import javax.lang.model.type.TypeVisitor;

/** The type of null. */
final class HostNullType extends HostType implements NullType {
    HostNullType(Model model) {
        super(model);
    }

    @Override
    Mirror mirror() {
        return Mirror.NULL;
    }

    @Override
    HostType copy() {
        return new HostNullType(model());
    }

    @Override
    public TypeKind getKind() {
        return TypeKind.NULL;
    }

    @Override
    public <R, P> R accept(TypeVisitor<R, P> visitor, P parameter) {
        return visitor.visitNull(this, parameter);
    }

    @Override
    public boolean equals(Object other) {
        return other instanceof HostNullType;
    }

    @Override
    public int hashCode() {
        return Mirror.NULL.hashCode();
    }

    @Override
    public String toString() {
        return "<nulltype>";
    }
}
