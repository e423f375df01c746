package dinxobhe.model;

import java.util.ArrayList;
import java.util.Collections;
import java.util.Comparator;
import java.util.HashMap;
import java.util.HashSet;
import java.util.List;
import java.util.Map;
import java.util.Set;
import java.util.stream.Collectors;
import javax.lang.model.element.ElementKind;

/**
 * All members of a type in the order of javac: those of java.lang.Object first, then from the farthest
 * supertype to the nearest, and the type's own ones last.
 */
final class AllMembers {
    private final Overriding overriding;
    private final Map<HostTypeElement, Integer> ranks = new HashMap<>();

    AllMembers(Overriding overriding) {
        this.overriding = overriding;
    }

    List<HostDeclaration> of(HostTypeElement type) {
        List<HostDeclaration> entered = new ArrayList<>();
        for (HostTypeElement supertype : nearestFirst(type)) {
            List<HostDeclaration> members = new ArrayList<>(supertype.getEnclosedElements());
            Collections.reverse(members);
            for (HostDeclaration member : members) {
                if (supertype.equals(type) || isInherited(member, entered, type)) {
                    entered.add(member);
                }
            }
        }
        Collections.reverse(entered);
        return List.copyOf(entered);
    }

    private boolean isInherited(HostDeclaration member, List<HostDeclaration> nearer, HostTypeElement type) {
        boolean isOverridden = member instanceof HostExecutableElement && nearer.stream()
            .filter(other -> other.getKind() == ElementKind.METHOD)
            .anyMatch(other -> overriding.overrides((HostExecutableElement) other,
                (HostExecutableElement) member, Overriding.owner(member)));
        return !isOverridden && member.getKind() != ElementKind.CONSTRUCTOR
            && overriding.isInheritedIn(member, type);
    }

    private List<HostTypeElement> nearestFirst(HostTypeElement type) {
        Set<HostTypeElement> all = new HashSet<>(Supertypes.all(type));
        return all.stream().sorted(Comparator.<HostTypeElement>comparingInt(one -> -rank(one))
            .thenComparing(one -> one.getQualifiedName().toString())).collect(Collectors.toList());
    }

    /** How many steps a type is from java.lang.Object, by the longest way. */
    private int rank(HostTypeElement type) {
        Integer known = ranks.get(type);
        if (known == null) {
            // A class that extends itself, which is an error, is not counted again.
            ranks.put(type, 0);
            known = type.isObject() ? 0
                : 1 + Supertypes.direct(type).stream().mapToInt(this::rank).max().orElse(0);
            ranks.put(type, known);
        }
        return known;
    }
}
