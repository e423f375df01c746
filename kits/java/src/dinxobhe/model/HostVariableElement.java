package dinxobhe.model;

import dinxobhe.frames.Info;
import dinxobhe.frames.Ref;
import java.util.List;
import java.util.Optional;
import javax.lang.model.element.ElementKind;
import javax.lang.model.element.ElementVisitor;
import javax.lang.model.element.Modifier;
import javax.lang.model.element.VariableElement;

/** A field, an enum constant or a parameter. */
final class HostVariableElement extends HostDeclaration implements VariableElement {
    private final Kept<HostType> type;
    private final Kept<Optional<Object>> constant;

    HostVariableElement(Model model, Ref ref, Info info) {
        super(model, ref, info);
        type = new Kept<>(model,
            () -> declaredAnnotations().onto(model.types().of(model.questions().typeOf(ref), ref)));
        constant = new Kept<>(model,
            () -> model.questions().constantValue(ref).flatMap(value -> Constants.of(value, asType())));
    }

    @Override
    public HostType asType() {
        return type.get();
    }

    @Override
    public Object getConstantValue() {
        return getKind() == ElementKind.FIELD && is(Modifier.FINAL) ? constant.get().orElse(null) : null;
    }

    @Override
    public List<HostElement> getEnclosedElements() {
        return JavacList.of(List.of());
    }

    @Override
    public <R, P> R accept(ElementVisitor<R, P> visitor, P parameter) {
        return visitor.visitVariable(this, parameter);
    }
}
