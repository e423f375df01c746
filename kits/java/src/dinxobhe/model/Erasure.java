package dinxobhe.model;

import java.util.List;
import java.util.stream.Collectors;

/** What is left of types without type variables and arguments. */
final class Erasure {
    private Erasure() {}

    static HostType of(HostType type) {
        if (type instanceof HostDeclaredType) {
            HostDeclaredType declared = (HostDeclaredType) type;
            return declared.isParameterized() ? type.model().types().raw(declared.asElement()) : declared;
        }
        if (type instanceof HostArrayType) {
            HostType component = of(((HostArrayType) type).getComponentType());
            return new HostArrayType(type.model(), component.withAnnotations(List.of()));
        }
        if (type instanceof HostTypeVariable) {
            return of(((HostTypeVariable) type).asElement().getBounds().get(0));
        }
        if (type instanceof HostIntersectionType) {
            return of(((HostIntersectionType) type).getBounds().get(0));
        }
        if (type instanceof HostWildcardType) {
            HostType bound = ((HostWildcardType) type).getExtendsBound();
            return bound == null ? type.model().type("java.lang.Object") : of(bound);
        }
        if (type instanceof HostExecutableType) {
            HostExecutableType executable = (HostExecutableType) type;
            return new HostExecutableType(type.model(), List.of(), of(executable.getParameterTypes()),
                of(executable.getReturnType()), of(executable.getThrownTypes()));
        }
        return type;
    }

    static List<HostType> of(List<HostType> types) {
        return types.stream().map(Erasure::of).collect(Collectors.toList());
    }
}
