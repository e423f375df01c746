package dinxobhe.stubs;

import java.util.EnumSet;
import java.util.Set;
import javax.lang.model.element.Element;
import javax.lang.model.element.ElementKind;
import javax.lang.model.element.ExecutableElement;
import javax.lang.model.element.Modifier;
import javax.lang.model.element.TypeElement;
import javax.lang.model.type.DeclaredType;
import javax.lang.model.type.TypeKind;
import javax.lang.model.type.TypeMirror;

/** The kinds of elements, and what the language adds to each. */
final class Kinds {
    private Kinds() {}

    static boolean isType(Element element) {
        return element.getKind().isClass() || element.getKind().isInterface();
    }

    /** Releases before 16 have no constant for it. */
    static boolean isRecord(Element element) {
        return element.getKind().name().equals("RECORD");
    }

    static TypeElement outermost(TypeElement type) {
        Element around = type.getEnclosingElement();
        return around != null && isType(around) ? outermost((TypeElement) around) : type;
    }

    /** The modifiers that an element has without being written (JLS 8.5.1, 8.9, 9.1.1, 9.3, 9.4, 9.5). */
    static Set<Modifier> impliedModifiers(Element element) {
        Set<Modifier> implied = EnumSet.noneOf(Modifier.class);
        Element around = element.getEnclosingElement();
        boolean isNested = around != null && isType(around);
        boolean isOfInterface = isNested && around.getKind().isInterface();
        if (isOfInterface) {
            implied.add(Modifier.PUBLIC);
        }
        ElementKind kind = element.getKind();
        if (kind == ElementKind.FIELD && isOfInterface) {
            implied.addAll(EnumSet.of(Modifier.STATIC, Modifier.FINAL));
        } else if (kind == ElementKind.METHOD && isOfInterface) {
            implied.add(Modifier.ABSTRACT);
        } else if (isType(element)) {
            if (isNested && (isOfInterface || kind.isInterface() || kind == ElementKind.ENUM)) {
                implied.add(Modifier.STATIC);
            }
            if (kind.isInterface() || kind == ElementKind.ENUM) {
                implied.add(Modifier.ABSTRACT);
            }
            if (kind == ElementKind.ENUM) {
                implied.add(Modifier.FINAL);
            }
        }
        return implied;
    }

    /** Whether this is {@code values} or {@code valueOf} of an enum, which the language adds. */
    static boolean isOfEveryEnum(ExecutableElement method) {
        boolean isOfEnum = method.getEnclosingElement().getKind() == ElementKind.ENUM;
        if (!isOfEnum || !method.getModifiers().contains(Modifier.STATIC)) {
            return false;
        }
        if (method.getSimpleName().contentEquals("values")) {
            return method.getParameters().isEmpty();
        }
        return method.getSimpleName().contentEquals("valueOf") && method.getParameters().size() == 1
            && isNamed(method.getParameters().get(0).asType(), "java.lang.String");
    }

    /** Whether a type is the declared type of this canonical name. */
    static boolean isNamed(TypeMirror type, String name) {
        return type.getKind() == TypeKind.DECLARED
            && ((TypeElement) ((DeclaredType) type).asElement()).getQualifiedName().contentEquals(name);
    }

    static boolean isObject(TypeMirror type) {
        return isNamed(type, "java.lang.Object");
    }
}
