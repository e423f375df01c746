package dinxobhe.model;

import dinxobhe.frames.Mirror;
import java.util.List;
import java.util.stream.Collectors;
import javax.lang.model.type.ExecutableType;
import javax.lang.model.type.TypeKind;
import javax.lang.model.type.TypeMirror;
import javax.lang.model.type.TypeVisitor;

/** The type of a method or constructor. */
final class HostExecutableType extends HostType implements ExecutableType {
    private final List<HostTypeVariable> variables;
    private final List<HostType> parameters;
    private final HostType result;
    private final List<HostType> thrown;

    HostExecutableType(Model model, List<HostTypeVariable> variables, List<HostType> parameters,
            HostType result, List<HostType> thrown) {
        super(model);
        this.variables = JavacList.of(variables);
        this.parameters = JavacList.of(parameters);
        this.result = result;
        this.thrown = JavacList.of(thrown);
    }

    @Override
    Mirror mirror() {
        return Mirror.executable(
            variables.stream().map(one -> one.asElement().ref()).collect(Collectors.toList()),
            mirrors(parameters), result.mirror(), mirrors(thrown));
    }

    @Override
    HostType copy() {
        return with(parameters, result);
    }

    HostExecutableType with(List<HostType> newParameters, HostType newResult) {
        return new HostExecutableType(model(), variables, newParameters, newResult, thrown);
    }

    @Override
    public TypeKind getKind() {
        return TypeKind.EXECUTABLE;
    }

    @Override
    public List<HostTypeVariable> getTypeVariables() {
        return variables;
    }

    @Override
    public List<HostType> getParameterTypes() {
        return parameters;
    }

    @Override
    public HostType getReturnType() {
        return result;
    }

    @Override
    public TypeMirror getReceiverType() {
        return model().types().none();
    }

    @Override
    public List<HostType> getThrownTypes() {
        return thrown;
    }

    @Override
    public <R, P> R accept(TypeVisitor<R, P> visitor, P parameter) {
        return visitor.visitExecutable(this, parameter);
    }

    @Override
    public boolean equals(Object object) {
        if (!(object instanceof HostExecutableType)) {
            return false;
        }
        HostExecutableType other = (HostExecutableType) object;
        return variables.equals(other.variables) && parameters.equals(other.parameters)
            && result.equals(other.result) && thrown.equals(other.thrown);
    }

    @Override
    public int hashCode() {
        return 31 * parameters.hashCode() + result.hashCode();
    }

    @Override
    public String toString() {
        String front = variables.isEmpty() ? "" : "<" + joined(variables) + ">";
        return front + "(" + joined(parameters) + ")" + result;
    }
}
