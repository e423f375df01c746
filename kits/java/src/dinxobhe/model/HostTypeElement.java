package dinxobhe.model;

import dinxobhe.frames.Info;
import dinxobhe.frames.Mirror;
import dinxobhe.frames.Ref;
import dinxobhe.frames.WrittenAnnotation;
import java.util.List;
import java.util.stream.Collectors;
import javax.lang.model.element.AnnotationMirror;
import javax.lang.model.element.ElementVisitor;
import javax.lang.model.element.Modifier;
import javax.lang.model.element.Name;
import javax.lang.model.element.NestingKind;
import javax.lang.model.element.TypeElement;

/** A class, an interface, an enum or an annotation interface. */
final class HostTypeElement extends HostDeclaration implements TypeElement {
    private final Name qualifiedName;
    private final Kept<List<HostTypeParameterElement>> typeParameters;
    private final Kept<Members> enclosed;
    private final Kept<HostDeclaredType> type;
    private final Kept<HostType> superclass;
    private final Kept<List<HostType>> interfaces;
    private final Kept<List<WrittenAnnotation>> metaAnnotations;

    HostTypeElement(Model model, Ref ref, Info info) {
        super(model, ref, info);
        qualifiedName = name(info.canonicalName());
        Questions questions = model.questions();
        typeParameters = new Kept<>(model,
            () -> model.elements(questions.typeParameters(ref), HostTypeParameterElement.class));
        enclosed = new Kept<>(model,
            () -> new Members(this, model.elements(questions.enclosed(ref), HostDeclaration.class)));
        type = new Kept<>(model, this::ownType);
        superclass = new Kept<>(model, () -> named(questions.superclass(ref)));
        interfaces = new Kept<>(model, () -> questions.interfaces(ref).stream().map(this::named)
            .collect(JavacList.collector()));
        metaAnnotations = new Kept<>(model, () -> questions.annotations(ref));
    }

    /** A type that is named before the body of this one, where its members are not seen. */
    private HostType named(Mirror mirror) {
        return model().types().of(mirror, ref().isUnit() ? null : ref().parent());
    }

    private HostDeclaredType ownType() {
        List<HostType> arguments = getTypeParameters().stream().map(HostTypeParameterElement::asType)
            .collect(Collectors.toList());
        HostType enclosing =
            isInner() ? ((HostTypeElement) getEnclosingElement()).asType() : model().types().none();
        return new HostDeclaredType(model(), this, enclosing, false, arguments);
    }

    /** Whether an object of it has one of the type around it. */
    boolean isInner() {
        return !ref().isUnit() && !is(Modifier.STATIC);
    }

    boolean isGeneric() {
        return !getTypeParameters().isEmpty();
    }

    /** Whether it or a type that its objects are within has type parameters. */
    boolean isWithinGeneric() {
        return isGeneric() || isInner() && ((HostTypeElement) getEnclosingElement()).isWithinGeneric();
    }

    /** The annotations of an annotation interface, as the host has them. */
    List<WrittenAnnotation> metaAnnotations() {
        return metaAnnotations.get();
    }

    boolean isObject() {
        return qualifiedName.contentEquals("java.lang.Object");
    }

    @Override
    public HostDeclaredType asType() {
        return type.get();
    }

    @Override
    public NestingKind getNestingKind() {
        return ref().isUnit() ? NestingKind.TOP_LEVEL : NestingKind.MEMBER;
    }

    @Override
    public Name getQualifiedName() {
        return qualifiedName;
    }

    @Override
    public HostType getSuperclass() {
        return superclass.get();
    }

    @Override
    public List<HostType> getInterfaces() {
        return interfaces.get();
    }

    @Override
    public List<HostTypeParameterElement> getTypeParameters() {
        return typeParameters.get();
    }

    @Override
    public List<HostDeclaration> getEnclosedElements() {
        return enclosed.get().inOrder();
    }

    /** Whether an element in it is written, type parameters included. */
    boolean hasWritten(HostDeclaration element) {
        return !enclosed.get().added().contains(element);
    }

    @Override
    public HostElement getEnclosingElement() {
        return ref().isUnit() ? model().packageOf(ref()) : super.getEnclosingElement();
    }

    @Override
    List<? extends AnnotationMirror> presentAnnotations() {
        return model().hostElements().getAllAnnotationMirrors(this);
    }

    @Override
    public <R, P> R accept(ElementVisitor<R, P> visitor, P parameter) {
        return visitor.visitType(this, parameter);
    }

    @Override
    public String toString() {
        return qualifiedName.toString();
    }
}
