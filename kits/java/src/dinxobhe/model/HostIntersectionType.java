package dinxobhe.model;

import dinxobhe.frames.Mirror;
import java.util.List;
import java.util.stream.Collectors;
import javax.lang.model.type.IntersectionType;
import javax.lang.model.type.TypeKind;
import javax.lang.model.type.TypeVisitor;

/** The bounds of a type parameter that has several, as one type. The host has no such types. */
final class HostIntersectionType extends HostType implements IntersectionType {
    private final List<HostType> bounds;

    HostIntersectionType(Model model, List<HostType> bounds) {
        super(model);
        this.bounds = JavacList.of(bounds);
    }

    /** The first bound, for want of a mirror. */
    @Override
    Mirror mirror() {
        return bounds.get(0).mirror();
    }

    @Override
    HostType copy() {
        return new HostIntersectionType(model(), bounds);
    }

    @Override
    public TypeKind getKind() {
        return TypeKind.INTERSECTION;
    }

    @Override
    public List<HostType> getBounds() {
        return bounds;
    }

    @Override
    public <R, P> R accept(TypeVisitor<R, P> visitor, P parameter) {
        return visitor.visitIntersection(this, parameter);
    }

    @Override
    public boolean equals(Object other) {
        return other instanceof HostIntersectionType && bounds.equals(((HostIntersectionType) other).bounds);
    }

    @Override
    public int hashCode() {
        return bounds.hashCode();
    }

    /** Interfaces alone stand behind the class of all objects. */
    @Override
    public String toString() {
        HostType first = bounds.get(0);
        boolean areInterfaces = first instanceof HostDeclaredType
            && ((HostDeclaredType) first).asElement().getKind().isInterface();
        return (areInterfaces ? "java.lang.Object&" : "")
            + bounds.stream().map(Object::toString).collect(Collectors.joining("&"));
    }
}
