package dinxobhe.stubs;

import java.util.HashSet;
import java.util.Set;
import javax.lang.model.element.Element;
import javax.lang.model.element.Modifier;
import javax.lang.model.element.TypeElement;
import javax.lang.model.util.Elements;

/**
 * Which members stubs have: public and protected ones; those of package access in the packages of the sources, which
 * see them; and nested types of any access which something that is written names. Other nested types must not be
 * written: the host looks up names without access, and each could hide a type of a source.
 */
final class Visibility {
    private final Elements elements;
    private final Set<String> open;
    private final Set<TypeElement> named = new HashSet<>();

    /** The names of packages of which members of package access are shown too. */
    Visibility(Elements elements, Set<String> open) {
        this.elements = elements;
        this.open = open;
    }

    /** Has a type shown, and all around it. Gives whether one of them was not. */
    boolean show(TypeElement type) {
        boolean isNew = false;
        for (Element e = type; Kinds.isType(e); e = e.getEnclosingElement()) {
            boolean wasShown = isShown(e);
            isNew |= named.add((TypeElement) e) && !wasShown;
        }
        return isNew;
    }

    boolean isShown(Element member) {
        Set<Modifier> modifiers = member.getModifiers();
        if (modifiers.contains(Modifier.PUBLIC) || modifiers.contains(Modifier.PROTECTED)) {
            return true;
        }
        if (Kinds.isType(member) && named.contains(member)) {
            return true;
        }
        return !modifiers.contains(Modifier.PRIVATE)
            && open.contains(elements.getPackageOf(member).getQualifiedName().toString());
    }
}
