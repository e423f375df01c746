package dinxobhe.model;

import java.util.HashSet;
import java.util.List;
import java.util.Set;
import java.util.stream.Collectors;
import java.util.stream.Stream;
import javax.lang.model.element.ElementKind;
import javax.lang.model.element.Modifier;

/** Which members a type inherits, hides and overrides, by the rules of javac. */
final class Overriding {
    private final HostTypes types;

    Overriding(HostTypes types) {
        this.types = types;
    }

    /** Whether the first method overrides the second, both as members of the type. */
    boolean overrides(HostExecutableElement rider, HostExecutableElement ridden, HostTypeElement in) {
        return rider.getSimpleName().equals(ridden.getSimpleName()) && !rider.equals(ridden)
            && !rider.is(Modifier.STATIC) && isMemberOf(ridden, in)
            && (overridesDirectly(rider, ridden) || overridesInherited(rider, ridden, in));
    }

    private boolean overridesDirectly(HostExecutableElement rider, HostExecutableElement ridden) {
        HostTypeElement owner = owner(rider);
        return isOverridableIn(ridden, owner) && Supertypes.isSubclass(owner, owner(ridden))
            && isSubsignature(rider, ridden, owner);
    }

    private boolean overridesInherited(HostExecutableElement rider, HostExecutableElement ridden,
            HostTypeElement in) {
        boolean isImplemented = !rider.is(Modifier.ABSTRACT)
            && (ridden.is(Modifier.ABSTRACT) || ridden.is(Modifier.DEFAULT));
        return isImplemented && isOverridableIn(ridden, in) && isMemberOf(rider, in)
            && isSubsignature(rider, ridden, in);
    }

    private boolean isSubsignature(HostExecutableElement one, HostExecutableElement other,
            HostTypeElement in) {
        return types.isSubsignature(memberType(one, in), memberType(other, in));
    }

    private HostExecutableType memberType(HostExecutableElement method, HostTypeElement in) {
        return (HostExecutableType) types.memberType(in.asType(), method);
    }

    private static boolean isOverridableIn(HostExecutableElement method, HostTypeElement type) {
        if (method.is(Modifier.PRIVATE)) {
            return false;
        }
        if (method.is(Modifier.PUBLIC)) {
            return !owner(method).getKind().isInterface() || !method.is(Modifier.STATIC);
        }
        return !type.getKind().isInterface()
            && (method.is(Modifier.PROTECTED) || isSamePackage(method, type));
    }

    static HostTypeElement owner(HostDeclaration member) {
        return (HostTypeElement) member.getEnclosingElement();
    }

    private static boolean isSamePackage(HostElement one, HostElement other) {
        return one.ref().packageName().equals(other.ref().packageName());
    }

    // Members.

    private boolean isMemberOf(HostDeclaration member, HostTypeElement type) {
        HostTypeElement owner = owner(member);
        return owner.equals(type)
            || Supertypes.isSubclass(type, owner) && isInheritedIn(member, type) && !isHiddenIn(member, type);
    }

    /** Whether a type inherits a member of a supertype, as far as access goes. */
    boolean isInheritedIn(HostDeclaration member, HostTypeElement type) {
        HostTypeElement owner = owner(member);
        if (member.is(Modifier.PUBLIC)) {
            boolean isOfInterface = member.getKind() == ElementKind.METHOD && owner.getKind().isInterface();
            return !isOfInterface || owner.equals(type) || !member.is(Modifier.STATIC);
        }
        return isAccessibleIn(member, type);
    }

    /** Whether a member of a supertype may be named in a type. */
    boolean isAccessibleIn(HostDeclaration member, HostTypeElement type) {
        if (member.is(Modifier.PUBLIC)) {
            return true;
        }
        if (member.is(Modifier.PRIVATE)) {
            return owner(member).equals(type);
        }
        return !type.getKind().isInterface()
            && (member.is(Modifier.PROTECTED) || isPackageSeen(member, type));
    }

    /** Whether all classes from the type up to the one of the member are in its package. */
    private static boolean isPackageSeen(HostDeclaration member, HostTypeElement type) {
        return Stream.concat(Stream.of(type), Supertypes.superclasses(type).stream())
            .takeWhile(one -> !one.equals(owner(member))).allMatch(one -> isSamePackage(member, one));
    }

    private boolean isHiddenIn(HostDeclaration member, HostTypeElement type) {
        return !member.equals(seen(member, type, new HashSet<>()));
    }

    /** The member, or another one that hides it on the way up from the type; null where neither is found. */
    private HostDeclaration seen(HostDeclaration member, HostTypeElement from, Set<HostTypeElement> passed) {
        if (from.equals(owner(member))) {
            return member;
        }
        if (!passed.add(from)) {
            return null;
        }
        for (HostDeclaration other : from.getEnclosedElements()) {
            if (isHiding(other, member)) {
                return other;
            }
        }
        HostDeclaration found = null;
        for (HostTypeElement supertype : Supertypes.direct(from)) {
            HostDeclaration above = seen(member, supertype, passed);
            if (member.equals(above)) {
                return above;
            }
            found = above == null ? found : above;
        }
        return found;
    }

    private boolean isHiding(HostDeclaration one, HostDeclaration other) {
        return isSameSort(one, other) && one.getSimpleName().equals(other.getSimpleName())
            && (!(one instanceof HostExecutableElement) || one.is(Modifier.STATIC)
                && types.isSubsignature(((HostExecutableElement) one).asType(),
                    ((HostExecutableElement) other).asType()));
    }

    private static boolean isSameSort(HostDeclaration one, HostDeclaration other) {
        return one.getClass() == other.getClass();
    }

    /** Whether the first element hides the second. */
    boolean hides(HostDeclaration hider, HostDeclaration hidden) {
        return !hider.equals(hidden) && isHiding(hider, hidden)
            && Supertypes.isSubclass(owner(hider), owner(hidden)) && isAccessibleIn(hidden, owner(hider));
    }

    /** The methods of an interface that a class has to implement, those of java.lang.Object aside. */
    List<HostExecutableElement> abstractMethods(HostTypeElement type) {
        HostTypeElement object = type.model().typeElement("java.lang.Object").orElse(null);
        return new AllMembers(this).of(type).stream()
            .filter(member -> member instanceof HostExecutableElement && member.is(Modifier.ABSTRACT))
            .map(HostExecutableElement.class::cast)
            .filter(method -> object == null || object.getEnclosedElements().stream()
                .noneMatch(other -> isImplementedBy(other, method)))
            .collect(Collectors.toList());
    }

    private boolean isImplementedBy(HostDeclaration ofObject, HostExecutableElement method) {
        return ofObject instanceof HostExecutableElement && ofObject.is(Modifier.PUBLIC)
            && ofObject.getSimpleName().equals(method.getSimpleName())
            && types.isSubsignature(method.asType(), ((HostExecutableElement) ofObject).asType());
    }
}
