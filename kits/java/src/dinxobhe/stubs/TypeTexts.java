package dinxobhe.stubs;

import java.util.List;
import java.util.Locale;
import java.util.function.Consumer;
import java.util.stream.Collectors;
import javax.lang.model.element.TypeElement;
import javax.lang.model.element.TypeParameterElement;
import javax.lang.model.type.ArrayType;
import javax.lang.model.type.DeclaredType;
import javax.lang.model.type.TypeKind;
import javax.lang.model.type.TypeMirror;
import javax.lang.model.type.TypeVariable;
import javax.lang.model.type.WildcardType;

/** Types as Java texts with full names. Each type that is named is told. */
final class TypeTexts {
    private final Consumer<TypeElement> named;
    private final Notes notes;

    TypeTexts(Consumer<TypeElement> named, Notes notes) {
        this.named = named;
        this.notes = notes;
    }

    String of(TypeMirror type) {
        switch (type.getKind()) {
            case DECLARED:
            case ERROR:
                return declared((DeclaredType) type);
            case ARRAY:
                return of(((ArrayType) type).getComponentType()) + "[]";
            case TYPEVAR:
                return JavaNames.checked(((TypeVariable) type).asElement().getSimpleName());
            case WILDCARD:
                return wildcard((WildcardType) type);
            default:
                return type.getKind().name().toLowerCase(Locale.ROOT);
        }
    }

    /** The types, with a comma between any two. */
    String of(List<? extends TypeMirror> types) {
        return types.stream().map(this::of).collect(Collectors.joining(", "));
    }

    /** The canonical name of a type, which is told if a library has it. */
    String name(TypeElement type) {
        String name = JavaNames.checked(type.getQualifiedName());
        if (type.asType().getKind() == TypeKind.ERROR) {
            notes.add(Notes.Kind.ABSENT, name);
        } else {
            named.accept(type);
        }
        return name;
    }

    private String declared(DeclaredType type) {
        TypeElement element = (TypeElement) type.asElement();
        String name = name(element);
        if (isGeneric(type.getEnclosingType())) {
            name = of(type.getEnclosingType()) + "." + element.getSimpleName();
        }
        List<? extends TypeMirror> arguments = type.getTypeArguments();
        return arguments.isEmpty() ? name : name + "<" + of(arguments) + ">";
    }

    /** Whether a type that encloses another has arguments, so that it is written in front of the other. */
    private static boolean isGeneric(TypeMirror enclosing) {
        if (enclosing.getKind() != TypeKind.DECLARED) {
            return false;
        }
        DeclaredType type = (DeclaredType) enclosing;
        return !type.getTypeArguments().isEmpty() || isGeneric(type.getEnclosingType());
    }

    private String wildcard(WildcardType type) {
        if (type.getExtendsBound() != null) {
            return "? extends " + of(type.getExtendsBound());
        }
        return type.getSuperBound() != null ? "? super " + of(type.getSuperBound()) : "?";
    }

    /** The bounds of a type parameter with {@code extends}; nothing where {@code Object} is the one bound. */
    String bounds(TypeParameterElement parameter) {
        List<? extends TypeMirror> bounds = parameter.getBounds();
        if (bounds.isEmpty() || bounds.size() == 1 && Kinds.isObject(bounds.get(0))) {
            return "";
        }
        return " extends " + bounds.stream().map(this::of).collect(Collectors.joining(" & "));
    }
}
