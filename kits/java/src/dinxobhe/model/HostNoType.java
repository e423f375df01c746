package dinxobhe.model;

import dinxobhe.frames.Mirror;
import javax.lang.model.type.NoType;
import javax.lang.model.type.TypeKind;
import javax.lang.model.type.TypeVisitor;

/** What stands where there is no type: none, void, or a package. */
final class HostNoType extends HostType implements NoType {
    private final Mirror mirror;

    HostNoType(Model model, Mirror mirror) {
        super(model);
        this.mirror = mirror;
    }

    @Override
    Mirror mirror() {
        return mirror;
    }

    @Override
    HostType copy() {
        return new HostNoType(model(), mirror);
    }

    @Override
    public TypeKind getKind() {
        switch (mirror.kind()) {
            case VOID:
                return TypeKind.VOID;
            case PACKAGE:
                return TypeKind.PACKAGE;
            default:
                return TypeKind.NONE;
        }
    }

    @Override
    public <R, P> R accept(TypeVisitor<R, P> visitor, P parameter) {
        return visitor.visitNoType(this, parameter);
    }

    @Override
    public boolean equals(Object other) {
        return other instanceof HostNoType && mirror.equals(((HostNoType) other).mirror);
    }

    @Override
    public int hashCode() {
        return mirror.hashCode();
    }

    @Override
    public String toString() {
        switch (mirror.kind()) {
            case VOID:
                return "void";
            case PACKAGE:
                return mirror.text();
            default:
                return "none";
        }
    }
}
