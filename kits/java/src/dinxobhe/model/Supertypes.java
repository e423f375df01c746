package dinxobhe.model;

import java.util.ArrayDeque;
import java.util.ArrayList;
import java.util.Deque;
import java.util.HashSet;
import java.util.LinkedHashSet;
import java.util.List;
import java.util.Optional;
import java.util.Set;
import java.util.stream.Collectors;
import java.util.stream.Stream;
import javax.lang.model.type.TypeKind;

/** The supertypes of declared types, computed from those that are written. */
final class Supertypes {
    private Supertypes() {}

    /** The superclass, if there is one, and then the interfaces, with the type's arguments in them. */
    static List<HostType> direct(HostDeclaredType type) {
        HostTypeElement element = type.asElement();
        List<HostType> written = new ArrayList<>();
        if (element.getSuperclass().getKind() != TypeKind.NONE) {
            written.add(element.getSuperclass());
        }
        written.addAll(element.getInterfaces());
        if (type.isRaw()) {
            return written.stream().map(Erasure::of).collect(Collectors.toList());
        }
        return Substitution.of(type).in(written);
    }

    /** The supertype of a type that an element declares, by the fewest steps; the type itself counts. */
    static Optional<HostDeclaredType> as(HostDeclaredType type, HostTypeElement element) {
        Deque<HostDeclaredType> waiting = new ArrayDeque<>(List.of(type));
        Set<HostTypeElement> seen = new HashSet<>();
        while (!waiting.isEmpty()) {
            HostDeclaredType next = waiting.remove();
            if (next.asElement().equals(element)) {
                return Optional.of(next);
            }
            if (seen.add(next.asElement())) {
                for (HostType supertype : direct(next)) {
                    if (supertype instanceof HostDeclaredType) {
                        waiting.add((HostDeclaredType) supertype);
                    }
                }
            }
        }
        return Optional.empty();
    }

    /**
     * The elements of a type's superclass, which for an interface is java.lang.Object, and of its interfaces.
     */
    static List<HostTypeElement> direct(HostTypeElement element) {
        HostType superclass =
            element.getKind().isInterface() ? element.model().type("java.lang.Object")
                : element.getSuperclass();
        return Stream.concat(Stream.of(superclass), element.getInterfaces().stream())
            .filter(type -> type instanceof HostDeclaredType)
            .map(type -> ((HostDeclaredType) type).asElement()).collect(Collectors.toList());
    }

    /** An element and all from which it inherits. */
    static Set<HostTypeElement> all(HostTypeElement element) {
        Set<HostTypeElement> found = new LinkedHashSet<>();
        Deque<HostTypeElement> waiting = new ArrayDeque<>(List.of(element));
        while (!waiting.isEmpty()) {
            HostTypeElement next = waiting.remove();
            if (found.add(next)) {
                waiting.addAll(direct(next));
            }
        }
        return found;
    }

    /** The superclass of a class, its superclass, and so on. */
    static Set<HostTypeElement> superclasses(HostTypeElement element) {
        Set<HostTypeElement> found = new LinkedHashSet<>();
        HostType at = element.getSuperclass();
        while (at instanceof HostDeclaredType && found.add(((HostDeclaredType) at).asElement())) {
            at = ((HostDeclaredType) at).asElement().getSuperclass();
        }
        return found;
    }

    static boolean isSubclass(HostTypeElement element, HostTypeElement of) {
        return element.equals(of) || all(element).contains(of);
    }
}
