package dinxobhe.model;

import dinxobhe.frames.Mirror;
import java.util.List;
import java.util.Optional;
import javax.lang.model.type.DeclaredType;
import javax.lang.model.type.TypeKind;
import javax.lang.model.type.TypeVisitor;

/** A type that a declaration gives, with its arguments. */
final class HostDeclaredType extends HostType implements DeclaredType {
    private final HostTypeElement element;
    private final HostType enclosing;
    /** Whether the host has the enclosing type too, and not the bridge alone. */
    private final boolean isEnclosingWritten;
    private final List<HostType> arguments;

    HostDeclaredType(Model model, HostTypeElement element, HostType enclosing, boolean isEnclosingWritten,
            List<? extends HostType> arguments) {
        super(model);
        this.element = element;
        this.enclosing = enclosing;
        this.isEnclosingWritten = isEnclosingWritten;
        this.arguments = JavacList.of(arguments);
    }

    @Override
    Mirror mirror() {
        Optional<Mirror> written = isEnclosingWritten ? Optional.of(enclosing.mirror()) : Optional.empty();
        return Mirror.declared(element.ref(), written, mirrors(arguments));
    }

    @Override
    HostType copy() {
        return with(enclosing, arguments);
    }

    /** The type of the same element with these. */
    HostDeclaredType with(HostType newEnclosing, List<HostType> newArguments) {
        return new HostDeclaredType(model(), element, newEnclosing, isEnclosingWritten, newArguments);
    }

    /** Whether it has no arguments where its element has parameters. */
    boolean isRaw() {
        return arguments.isEmpty() && element.isGeneric()
            || enclosing instanceof HostDeclaredType && ((HostDeclaredType) enclosing).isRaw();
    }

    boolean isParameterized() {
        return !arguments.isEmpty()
            || enclosing instanceof HostDeclaredType && ((HostDeclaredType) enclosing).isParameterized();
    }

    @Override
    public TypeKind getKind() {
        return TypeKind.DECLARED;
    }

    @Override
    public HostTypeElement asElement() {
        return element;
    }

    @Override
    public HostType getEnclosingType() {
        return enclosing;
    }

    @Override
    public List<HostType> getTypeArguments() {
        return arguments;
    }

    @Override
    public <R, P> R accept(TypeVisitor<R, P> visitor, P parameter) {
        return visitor.visitDeclared(this, parameter);
    }

    @Override
    public boolean equals(Object object) {
        if (!(object instanceof HostDeclaredType)) {
            return false;
        }
        HostDeclaredType other = (HostDeclaredType) object;
        return element.equals(other.element) && enclosing.equals(other.enclosing)
            && arguments.equals(other.arguments);
    }

    @Override
    public int hashCode() {
        return 31 * element.hashCode() + arguments.hashCode();
    }

    @Override
    public String toString() {
        String name = enclosing instanceof HostDeclaredType ? enclosing + "." + element.getSimpleName()
            : element.getQualifiedName().toString();
        return annotationTexts() + name + (arguments.isEmpty() ? "" : "<" + joined(arguments) + ">");
    }
}
