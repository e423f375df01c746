package dinxobhe.model;

import java.util.HashMap;
import java.util.List;
import java.util.Map;
import java.util.stream.Collectors;
import javax.lang.model.element.TypeParameterElement;

/** Types in the place of type variables. */
final class Substitution {
    private final Map<HostTypeParameterElement, HostType> types = new HashMap<>();

    /** The arguments of a type, and of those that enclose it, for the variables of its elements. */
    static Substitution of(HostDeclaredType type) {
        Substitution arguments = new Substitution();
        HostType at = type;
        while (at instanceof HostDeclaredType) {
            HostDeclaredType declared = (HostDeclaredType) at;
            arguments.put(declared.asElement().getTypeParameters(), declared.getTypeArguments());
            at = declared.getEnclosingType();
        }
        return arguments;
    }

    /** The variables of one executable for those of another. */
    static Substitution of(List<HostTypeVariable> from, List<HostTypeVariable> to) {
        Substitution names = new Substitution();
        names.put(from.stream().map(HostTypeVariable::asElement).collect(Collectors.toList()), to);
        return names;
    }

    private void put(List<HostTypeParameterElement> variables, List<? extends HostType> arguments) {
        for (int i = 0; i < variables.size() && i < arguments.size(); i++) {
            types.put(variables.get(i), arguments.get(i));
        }
    }

    HostType in(HostType type) {
        if (types.isEmpty()) {
            return type;
        }
        HostType changed = changed(type);
        // The annotations of a variable that is replaced stay those of the argument.
        boolean keepsAnnotations = type.getAnnotationMirrors().isEmpty() || changed == type;
        return keepsAnnotations ? changed : changed.withAnnotations(type.getAnnotationMirrors());
    }

    private HostType changed(HostType type) {
        if (type instanceof HostTypeVariable) {
            TypeParameterElement element = ((HostTypeVariable) type).asElement();
            return types.getOrDefault(element, type);
        }
        if (type instanceof HostDeclaredType) {
            HostDeclaredType declared = (HostDeclaredType) type;
            return declared.with(in(declared.getEnclosingType()), in(declared.getTypeArguments()));
        }
        if (type instanceof HostArrayType) {
            return new HostArrayType(type.model(), in(((HostArrayType) type).getComponentType()));
        }
        if (type instanceof HostWildcardType) {
            HostWildcardType wildcard = (HostWildcardType) type;
            return wildcard.with(wildcard.bound().map(this::in));
        }
        if (type instanceof HostExecutableType) {
            HostExecutableType executable = (HostExecutableType) type;
            return new HostExecutableType(type.model(), executable.getTypeVariables(),
                in(executable.getParameterTypes()), in(executable.getReturnType()),
                in(executable.getThrownTypes()));
        }
        return type;
    }

    List<HostType> in(List<HostType> list) {
        return list.stream().map(this::in).collect(Collectors.toList());
    }
}
