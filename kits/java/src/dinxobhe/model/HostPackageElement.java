package dinxobhe.model;

import dinxobhe.frames.Mirror;
import dinxobhe.frames.Ref;
import java.util.List;
import java.util.Set;
import javax.lang.model.element.ElementKind;
import javax.lang.model.element.ElementVisitor;
import javax.lang.model.element.Modifier;
import javax.lang.model.element.Name;
import javax.lang.model.element.PackageElement;

/** A package. No module encloses it. */
final class HostPackageElement extends HostElement implements PackageElement {
    private final String name;
    private final Kept<List<HostElement>> enclosed;

    HostPackageElement(Model model, Ref ref) {
        super(model, ref);
        name = ref.packageName();
        enclosed =
            new Kept<>(model, () -> model.elements(model.questions().enclosed(ref), HostElement.class));
    }

    @Override
    public HostType asType() {
        return model().types().of(Mirror.ofPackage(name), null);
    }

    @Override
    public ElementKind getKind() {
        return ElementKind.PACKAGE;
    }

    @Override
    public Set<Modifier> getModifiers() {
        return Set.of();
    }

    @Override
    public Name getSimpleName() {
        return name(name.substring(name.lastIndexOf('.') + 1));
    }

    @Override
    public Name getQualifiedName() {
        return name(name);
    }

    @Override
    public boolean isUnnamed() {
        return name.isEmpty();
    }

    @Override
    public List<HostElement> getEnclosedElements() {
        return enclosed.get();
    }

    @Override
    public HostElement getEnclosingElement() {
        return null;
    }

    @Override
    public <R, P> R accept(ElementVisitor<R, P> visitor, P parameter) {
        return visitor.visitPackage(this, parameter);
    }

    @Override
    public String toString() {
        return isUnnamed() ? "unnamed package" : name;
    }
}
