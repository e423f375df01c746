package dinxobhe.model;

import dinxobhe.frames.Info;
import dinxobhe.frames.Ref;
import java.util.ArrayList;
import java.util.List;
import java.util.Optional;
import java.util.stream.Collectors;
import javax.lang.model.element.AnnotationValue;
import javax.lang.model.element.ElementKind;
import javax.lang.model.element.ElementVisitor;
import javax.lang.model.element.ExecutableElement;
import javax.lang.model.element.Modifier;
import javax.lang.model.type.TypeMirror;

/** A method or constructor. */
final class HostExecutableElement extends HostDeclaration implements ExecutableElement {
    private final Kept<List<HostTypeParameterElement>> typeParameters;
    private final Kept<List<HostVariableElement>> parameters;
    private final Kept<HostExecutableType> type;
    private final Kept<Optional<AnnotationValue>> defaultValue;

    HostExecutableElement(Model model, Ref ref, Info info) {
        super(model, ref, info);
        Questions questions = model.questions();
        typeParameters = new Kept<>(model,
            () -> model.elements(questions.typeParameters(ref), HostTypeParameterElement.class));
        parameters = new Kept<>(model,
            () -> model.elements(questions.parameters(ref), HostVariableElement.class));
        type = new Kept<>(model, this::fetchedType);
        defaultValue = new Kept<>(model,
            () -> questions.defaultValue(ref)
                .map(value -> AnnotationValues.of(model, value, getReturnType(), ref)));
    }

    private HostExecutableType fetchedType() {
        HostExecutableType fetched =
            (HostExecutableType) model().types().of(model().questions().typeOf(ref()), ref());
        List<HostType> types = new ArrayList<>();
        for (int i = 0; i < fetched.getParameterTypes().size(); i++) {
            types.add(getParameters().get(i).declaredAnnotations().onto(fetched.getParameterTypes().get(i)));
        }
        return fetched.with(types, declaredAnnotations().onto(fetched.getReturnType()));
    }

    @Override
    public HostExecutableType asType() {
        return type.get();
    }

    @Override
    public List<HostTypeParameterElement> getTypeParameters() {
        return typeParameters.get();
    }

    @Override
    public HostType getReturnType() {
        return asType().getReturnType();
    }

    @Override
    public List<HostVariableElement> getParameters() {
        return parameters.get();
    }

    @Override
    public TypeMirror getReceiverType() {
        return model().types().none();
    }

    @Override
    public boolean isVarArgs() {
        return info().isVarArgs();
    }

    @Override
    public boolean isDefault() {
        return is(Modifier.DEFAULT);
    }

    @Override
    public List<? extends TypeMirror> getThrownTypes() {
        return asType().getThrownTypes();
    }

    @Override
    public AnnotationValue getDefaultValue() {
        // Other types have no defaults, so nothing is asked.
        boolean mayHaveOne = getEnclosingElement().getKind() == ElementKind.ANNOTATION_TYPE;
        return mayHaveOne ? defaultValue.get().orElse(null) : null;
    }

    @Override
    public List<HostElement> getEnclosedElements() {
        return JavacList.of(List.of());
    }

    @Override
    public <R, P> R accept(ElementVisitor<R, P> visitor, P parameter) {
        return visitor.visitExecutable(this, parameter);
    }

    @Override
    public String toString() {
        String name = getKind() == ElementKind.CONSTRUCTOR ? getEnclosingElement().getSimpleName().toString()
            : getSimpleName().toString();
        String variables = getTypeParameters().isEmpty() ? "" : getTypeParameters().stream()
            .map(Object::toString).collect(Collectors.joining(",", "<", ">"));
        return variables + name + "(" + parameterTypes() + ")";
    }

    private String parameterTypes() {
        String types = HostType.joined(asType().getParameterTypes());
        // The last parameter's type is an array, which is written with dots.
        return isVarArgs() && types.endsWith("[]") ? types.substring(0, types.length() - 2) + "..." : types;
    }
}
