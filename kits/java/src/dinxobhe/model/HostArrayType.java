package dinxobhe.model;

import dinxobhe.frames.Mirror;
import javax.lang.model.type.ArrayType;
import javax.lang.model.type.TypeKind;
import javax.lang.model.type.TypeVisitor;

/** An array type. */
final class HostArrayType extends HostType implements ArrayType {
    private final HostType component;

    HostArrayType(Model model, HostType component) {
        super(model);
        this.component = component;
    }

    @Override
    Mirror mirror() {
        return Mirror.array(component.mirror());
    }

    @Override
    HostType copy() {
        return new HostArrayType(model(), component);
    }

    @Override
    public TypeKind getKind() {
        return TypeKind.ARRAY;
    }

    @Override
    public HostType getComponentType() {
        return component;
    }

    @Override
    public <R, P> R accept(TypeVisitor<R, P> visitor, P parameter) {
        return visitor.visitArray(this, parameter);
    }

    @Override
    public boolean equals(Object other) {
        return other instanceof HostArrayType && component.equals(((HostArrayType) other).component);
    }

    @Override
    public int hashCode() {
        return 31 * component.hashCode() + 1;
    }

    @Override
    public String toString() {
        HostType item = component;
        String brackets = brackets(this);
        for (; item instanceof HostArrayType; item = ((HostArrayType) item).component) {
            brackets += brackets((HostArrayType) item);
        }
        return item + brackets;
    }

    private static String brackets(HostArrayType array) {
        String annotations = array.annotationTexts();
        return (annotations.isEmpty() ? "" : " " + annotations) + "[]";
    }
}
