package dinxobhe.model;

import dinxobhe.frames.Mirror;
import java.util.Locale;
import javax.lang.model.type.PrimitiveType;
import javax.lang.model.type.TypeKind;
import javax.lang.model.type.TypeVisitor;

/** A primitive type. */
final class HostPrimitiveType extends HostType implements PrimitiveType {
    private final Mirror.Primitive primitive;

    HostPrimitiveType(Model model, Mirror.Primitive primitive) {
        super(model);
        this.primitive = primitive;
    }

    @Override
    Mirror mirror() {
        return Mirror.primitive(primitive);
    }

    @Override
    HostType copy() {
        return new HostPrimitiveType(model(), primitive);
    }

    @Override
    public TypeKind getKind() {
        return TypeKind.valueOf(primitive.name());
    }

    @Override
    public <R, P> R accept(TypeVisitor<R, P> visitor, P parameter) {
        return visitor.visitPrimitive(this, parameter);
    }

    @Override
    public boolean equals(Object other) {
        return other instanceof HostPrimitiveType && primitive == ((HostPrimitiveType) other).primitive;
    }

    @Override
    public int hashCode() {
        return primitive.hashCode();
    }

    @Override
    public String toString() {
        return annotationTexts() + primitive.name().toLowerCase(Locale.ROOT);
    }
}
