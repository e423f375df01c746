package dinxobhe.model;

import dinxobhe.frames.Mirror;
import java.util.List;
import javax.lang.model.element.Element;
import javax.lang.model.type.ErrorType;
import javax.lang.model.type.TypeKind;
import javax.lang.model.type.TypeMirror;
import javax.lang.model.type.TypeVisitor;

/** A type that the host doesn't know. It has the text that was written. */
final class HostErrorType extends HostType implements ErrorType {
    /** What javac has for an unknown type with arguments. */
    private static final String ANY = "<any>";

    private final String text;

    HostErrorType(Model model, String text) {
        super(model);
        this.text = text;
    }

    private String name() {
        return text.indexOf('<') < 0 ? text : ANY;
    }

    @Override
    Mirror mirror() {
        return Mirror.error(text);
    }

    @Override
    HostType copy() {
        return new HostErrorType(model(), text);
    }

    @Override
    public TypeKind getKind() {
        return TypeKind.ERROR;
    }

    @Override
    public Element asElement() {
        return new UnknownTypeElement(model(), this, name());
    }

    @Override
    public TypeMirror getEnclosingType() {
        return model().types().none();
    }

    @Override
    public List<? extends TypeMirror> getTypeArguments() {
        return JavacList.of(List.of());
    }

    @Override
    public <R, P> R accept(TypeVisitor<R, P> visitor, P parameter) {
        return visitor.visitError(this, parameter);
    }

    @Override
    public boolean equals(Object other) {
        return other instanceof HostErrorType && text.equals(((HostErrorType) other).text);
    }

    @Override
    public int hashCode() {
        return text.hashCode();
    }

    @Override
    public String toString() {
        return annotationTexts() + name();
    }
}
