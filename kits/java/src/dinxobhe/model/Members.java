package dinxobhe.model;

import dinxobhe.frames.Info;
import java.util.ArrayList;
import java.util.List;
import java.util.Set;
import javax.lang.model.element.ElementKind;
import javax.lang.model.element.Modifier;

/**
 * The elements in a type, in the order in which javac has them: the nested types, then those that are not
 * written, then the others as they are written. The host has those that are not written behind all others.
 */
final class Members {
    /** The methods of an enum that are not written. */
    private static final int OF_EVERY_ENUM = 2;

    private final List<HostDeclaration> ordered;
    private final List<HostDeclaration> added;

    /** @param enclosed the elements in the type, in the order of the host */
    Members(HostTypeElement type, List<HostDeclaration> enclosed) {
        int end = enclosed.size() - (type.getKind() == ElementKind.ENUM ? OF_EVERY_ENUM : 0);
        List<HostDeclaration> written = new ArrayList<>(enclosed.subList(0, end));
        List<HostDeclaration> all = new ArrayList<>();
        written.stream().filter(Members::isType).forEach(all::add);
        written.removeIf(Members::isType);
        added = new ArrayList<>(enclosed.subList(end, enclosed.size()));
        int last = written.size() - 1;
        if (last >= 0 && isDefaultConstructor(type, written)) {
            added.add(written.remove(last));
        }
        all.addAll(added);
        all.addAll(written);
        ordered = JavacList.of(all);
    }

    List<HostDeclaration> inOrder() {
        return ordered;
    }

    /** The elements that are not written. */
    List<HostDeclaration> added() {
        return added;
    }

    private static boolean isType(HostDeclaration element) {
        return element.getKind().isClass() || element.getKind().isInterface();
    }

    /**
     * Whether the last element is the constructor that a class without one has. No answer of the host says
     * so: it is taken to be where it is the only one, and looks like it.
     */
    private static boolean isDefaultConstructor(HostTypeElement type, List<HostDeclaration> written) {
        HostDeclaration last = written.get(written.size() - 1);
        long constructors = written.stream().filter(one -> one.getKind() == ElementKind.CONSTRUCTOR).count();
        if (last.info().kind() != Info.Kind.CONSTRUCTOR || constructors != 1) {
            return false;
        }
        HostExecutableElement constructor = (HostExecutableElement) last;
        Set<Modifier> access = type.getKind() == ElementKind.ENUM ? Set.of(Modifier.PRIVATE) : access(type);
        return access.equals(constructor.getModifiers()) && constructor.getParameters().isEmpty()
            && constructor.getTypeParameters().isEmpty() && constructor.getThrownTypes().isEmpty()
            && constructor.getAnnotationMirrors().isEmpty()
            && type.model().questions().docComment(constructor.ref()).isEmpty();
    }

    private static Set<Modifier> access(HostTypeElement type) {
        for (Modifier modifier : List.of(Modifier.PUBLIC, Modifier.PROTECTED, Modifier.PRIVATE)) {
            if (type.is(modifier)) {
                return Set.of(modifier);
            }
        }
        return Set.of();
    }
}
