package dinxobhe.model;

import java.util.ArrayList;
import java.util.List;
import java.util.Optional;
import java.util.stream.Collectors;

/**
 * The direct supertypes of types as javac has them. An interface has java.lang.Object, whatever it extends;
 * an array has arrays of the superclass of its item alone.
 */
final class DirectSupertypes {
    private final Model model;

    DirectSupertypes(Model model) {
        this.model = model;
    }

    List<HostType> of(HostType type) {
        if (type instanceof HostIntersectionType) {
            return List.copyOf(((HostIntersectionType) type).getBounds());
        }
        List<HostType> supertypes = new ArrayList<>();
        superclass(type).ifPresent(supertypes::add);
        supertypes.addAll(interfaces(type));
        return List.copyOf(supertypes);
    }

    private HostType object() {
        return model.type("java.lang.Object");
    }

    private Optional<HostType> superclass(HostType type) {
        if (type instanceof HostDeclaredType) {
            HostDeclaredType declared = (HostDeclaredType) type;
            return declared.asElement().getKind().isInterface() ? Optional.of(object())
                : Supertypes.direct(declared).stream().filter(one -> hasSuperclass(declared)).findFirst();
        }
        if (type instanceof HostTypeVariable) {
            HostType first = ((HostTypeVariable) type).asElement().getBounds().get(0);
            return Optional.of(isInterface(first) ? object() : first);
        }
        if (type instanceof HostArrayType) {
            return Optional.of(superclass((HostArrayType) type));
        }
        return Optional.empty();
    }

    private static boolean hasSuperclass(HostDeclaredType type) {
        return !(type.asElement().getSuperclass() instanceof HostNoType);
    }

    private HostType superclass(HostArrayType array) {
        HostType item = array.getComponentType();
        if (item instanceof HostPrimitiveType || item.equals(object())) {
            return new HostIntersectionType(model,
                List.of(object(), model.type("java.io.Serializable"), model.type("java.lang.Cloneable")));
        }
        return new HostArrayType(model, superclass(item).orElseGet(this::object));
    }

    private static boolean isInterface(HostType type) {
        return type instanceof HostDeclaredType
            && ((HostDeclaredType) type).asElement().getKind().isInterface();
    }

    private static List<HostType> interfaces(HostType type) {
        if (type instanceof HostDeclaredType) {
            HostDeclaredType declared = (HostDeclaredType) type;
            List<HostType> all = Supertypes.direct(declared);
            return hasSuperclass(declared) ? all.subList(1, all.size()) : all;
        }
        if (type instanceof HostTypeVariable) {
            return ((HostTypeVariable) type).asElement().getBounds().stream()
                .filter(DirectSupertypes::isInterface)
                .collect(Collectors.toList());
        }
        return List.of();
    }
}
