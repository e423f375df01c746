package dinxobhe.model;

import dinxobhe.frames.Mirror;
import java.util.Arrays;
import java.util.EnumSet;
import java.util.List;
import java.util.Optional;
import java.util.Set;
import java.util.stream.Collectors;
import java.util.stream.Stream;
import javax.lang.model.element.Element;
import javax.lang.model.element.Modifier;
import javax.lang.model.element.TypeElement;
import javax.lang.model.type.ArrayType;
import javax.lang.model.type.DeclaredType;
import javax.lang.model.type.ExecutableType;
import javax.lang.model.type.NoType;
import javax.lang.model.type.NullType;
import javax.lang.model.type.PrimitiveType;
import javax.lang.model.type.TypeKind;
import javax.lang.model.type.TypeMirror;
import javax.lang.model.type.WildcardType;
import javax.lang.model.util.Types;

/** What processors ask about types. The host answers for subtypes; the rest follows from what was fetched. */
final class HostTypes implements Types {
    private static final Set<TypeKind> NO_TYPES = EnumSet.of(TypeKind.EXECUTABLE, TypeKind.PACKAGE);
    private static final Set<TypeKind> NO_COMPONENTS =
        EnumSet.of(TypeKind.EXECUTABLE, TypeKind.PACKAGE, TypeKind.VOID, TypeKind.WILDCARD);
    private static final Set<TypeKind> NO_BOUNDS = EnumSet.complementOf(
        EnumSet.of(TypeKind.ARRAY, TypeKind.DECLARED, TypeKind.ERROR, TypeKind.TYPEVAR));
    private static final Set<TypeKind> NO_ARGUMENTS = EnumSet.complementOf(EnumSet.of(TypeKind.ARRAY,
        TypeKind.DECLARED, TypeKind.ERROR, TypeKind.TYPEVAR, TypeKind.NULL, TypeKind.INTERSECTION,
        TypeKind.WILDCARD));

    private final Model model;

    HostTypes(Model model) {
        this.model = model;
    }

    private static HostType host(TypeMirror type) {
        if (type instanceof HostType) {
            return (HostType) type;
        }
        throw new IllegalArgumentException("not a type of the host: " + type);
    }

    private static HostType checked(TypeMirror type, Set<TypeKind> refused) {
        if (refused.contains(type.getKind())) {
            throw new IllegalArgumentException(type.toString());
        }
        return host(type);
    }

    @Override
    public Element asElement(TypeMirror type) {
        switch (type.getKind()) {
            case DECLARED:
            case ERROR:
                return ((DeclaredType) type).asElement();
            case TYPEVAR:
                return ((HostTypeVariable) type).asElement();
            default:
                return null;
        }
    }

    // Relations.

    @Override
    public boolean isSameType(TypeMirror one, TypeMirror other) {
        if (one.getKind() == TypeKind.WILDCARD || other.getKind() == TypeKind.WILDCARD) {
            return false;
        }
        if (one.getKind() == TypeKind.ERROR || other.getKind() == TypeKind.ERROR) {
            return !NO_TYPES.contains(one.getKind());
        }
        if (one instanceof HostExecutableType && other instanceof HostExecutableType) {
            HostExecutableType method = (HostExecutableType) one;
            HostExecutableType renamed = renamed((HostExecutableType) other, method);
            return method.getParameterTypes().equals(renamed.getParameterTypes())
                && method.getReturnType().equals(renamed.getReturnType());
        }
        return host(one).equals(host(other));
    }

    @Override
    public boolean isSubtype(TypeMirror one, TypeMirror other) {
        return holds(checked(one, NO_TYPES), checked(other, NO_TYPES), model.questions()::isSubtype);
    }

    @Override
    public boolean isAssignable(TypeMirror one, TypeMirror other) {
        return holds(checked(one, NO_TYPES), checked(other, NO_TYPES), model.questions()::isAssignable);
    }

    /** A question on two types. */
    private interface Relation {
        boolean holds(Mirror one, Mirror other);
    }

    /** An unknown type stands in each relation with all others, so that it causes no further errors. */
    private static boolean isUnknown(HostType one, HostType other) {
        return one instanceof HostErrorType || other instanceof HostErrorType;
    }

    /**
     * The host has no intersections: one is below a type if one of its bounds is, and above if all of them
     * are. What is below a wildcard is below its lower bound.
     */
    private static boolean holds(HostType one, HostType other, Relation relation) {
        if (one == other || isUnknown(one, other)) {
            return true;
        }
        if (other instanceof HostWildcardType && ((HostWildcardType) other).getSuperBound() != null) {
            return holds(one, ((HostWildcardType) other).getSuperBound(), relation);
        }
        if (other instanceof HostIntersectionType) {
            return ((HostIntersectionType) other).getBounds().stream()
                .allMatch(bound -> holds(one, bound, relation));
        }
        if (one instanceof HostIntersectionType) {
            return ((HostIntersectionType) one).getBounds().stream()
                .anyMatch(bound -> holds(bound, other, relation));
        }
        return one.equals(other) && one.getKind() != TypeKind.WILDCARD
            || relation.holds(one.mirror(), other.mirror());
    }

    @Override
    public boolean contains(TypeMirror one, TypeMirror other) {
        HostType container = checked(one, NO_TYPES);
        HostType contained = checked(other, NO_TYPES);
        return isUnknown(container, contained)
            || model.questions().contains(container.mirror(), contained.mirror());
    }

    @Override
    public boolean isSubsignature(ExecutableType one, ExecutableType other) {
        HostExecutableType method = (HostExecutableType) one;
        HostExecutableType above = (HostExecutableType) other;
        List<HostType> parameters = method.getParameterTypes();
        boolean isSame = method.getTypeVariables().size() == above.getTypeVariables().size()
            && parameters.equals(renamed(above, method).getParameterTypes());
        return isSame || method.getTypeVariables().isEmpty()
            && parameters.equals(Erasure.of(above.getParameterTypes()));
    }

    /** An executable's type with the variables of another one for its own. */
    private static HostExecutableType renamed(HostExecutableType type, HostExecutableType to) {
        return (HostExecutableType) Substitution.of(type.getTypeVariables(), to.getTypeVariables()).in(type);
    }

    // Types of types.

    @Override
    public List<? extends TypeMirror> directSupertypes(TypeMirror type) {
        return new DirectSupertypes(model).of(checked(type, NO_TYPES));
    }

    @Override
    public TypeMirror erasure(TypeMirror type) {
        return Erasure.of(checked(type, EnumSet.of(TypeKind.PACKAGE)));
    }

    @Override
    public TypeElement boxedClass(PrimitiveType type) {
        HostType boxed = model.types().of(model.questions().boxed(host(type).mirror()), null);
        return (TypeElement) asElement(boxed);
    }

    @Override
    public PrimitiveType unboxedType(TypeMirror type) {
        if (type.getKind() != TypeKind.DECLARED) {
            throw new IllegalArgumentException(type.toString());
        }
        return (PrimitiveType) model.types().of(model.questions().unboxed(host(type).mirror()), null);
    }

    /** The same type where it has no wildcards; the host captures none. */
    @Override
    public TypeMirror capture(TypeMirror type) {
        HostType of = checked(type, NO_TYPES);
        if (hasWildcard(of)) {
            throw new UnsupportedOperationException("Types.capture of " + type);
        }
        return of;
    }

    /** Whether an argument of it is a wildcard, or one of a type around it. */
    private static boolean hasWildcard(HostType type) {
        if (!(type instanceof HostDeclaredType)) {
            return false;
        }
        HostDeclaredType declared = (HostDeclaredType) type;
        return hasWildcard(declared.getEnclosingType()) || declared.getTypeArguments().stream()
            .anyMatch(argument -> argument.getKind() == TypeKind.WILDCARD);
    }

    @Override
    public TypeMirror asMemberOf(DeclaredType containing, Element element) {
        if (containing instanceof HostErrorType) {
            return element.asType();
        }
        HostDeclaredType container = (HostDeclaredType) host(containing);
        HostDeclaration member = (HostDeclaration) element;
        boolean isMember = member.getEnclosingElement() instanceof HostTypeElement
            && Supertypes.isSubclass(container.asElement(), (HostTypeElement) member.getEnclosingElement());
        if (!isMember) {
            throw new IllegalArgumentException(element + "@" + containing);
        }
        return memberType(container, member);
    }

    HostType memberType(HostDeclaredType container, HostDeclaration member) {
        HostTypeElement owner = (HostTypeElement) member.getEnclosingElement();
        HostType type = member.asType();
        if (member.is(Modifier.STATIC) || !owner.isWithinGeneric()) {
            return type;
        }
        Optional<HostDeclaredType> base = Supertypes.as(container, owner);
        if (base.isEmpty()) {
            return type;
        }
        return base.get().isRaw() ? Erasure.of(type) : Substitution.of(base.get()).in(type);
    }

    // Making types.

    @Override
    public PrimitiveType getPrimitiveType(TypeKind kind) {
        if (!kind.isPrimitive()) {
            throw new IllegalArgumentException("Not a primitive type: " + kind);
        }
        return new HostPrimitiveType(model, Mirror.Primitive.valueOf(kind.name()));
    }

    @Override
    public NullType getNullType() {
        return new HostNullType(model);
    }

    @Override
    public NoType getNoType(TypeKind kind) {
        switch (kind) {
            case VOID:
                return new HostNoType(model, Mirror.VOID);
            case NONE:
                return model.types().none();
            default:
                throw new IllegalArgumentException(kind.toString());
        }
    }

    @Override
    public ArrayType getArrayType(TypeMirror component) {
        return new HostArrayType(model, checked(component, NO_COMPONENTS));
    }

    @Override
    public WildcardType getWildcardType(TypeMirror extendsBound, TypeMirror superBound) {
        if (extendsBound != null && superBound != null) {
            throw new IllegalArgumentException("Extends and super bounds cannot both be provided");
        }
        Mirror.Bound bound = extendsBound != null ? Mirror.Bound.EXTENDS
            : superBound != null ? Mirror.Bound.SUPER : Mirror.Bound.NONE;
        return new HostWildcardType(model, bound, Stream.of(Optional.ofNullable(extendsBound),
            Optional.ofNullable(superBound)).flatMap(Optional::stream)
            .map(one -> checked(one, NO_BOUNDS)).findFirst());
    }

    @Override
    public DeclaredType getDeclaredType(TypeElement type, TypeMirror... arguments) {
        if (type instanceof UnknownTypeElement) {
            return (DeclaredType) type.asType();
        }
        HostTypeElement element = (HostTypeElement) type;
        if (arguments.length == 0) {
            return model.types().raw(element);
        }
        if (element.isInner() && ((HostTypeElement) element.getEnclosingElement()).isWithinGeneric()) {
            throw new IllegalArgumentException(type.toString());
        }
        return declared(model.types().enclosing(element, null), element, false, arguments);
    }

    @Override
    public DeclaredType getDeclaredType(DeclaredType containing, TypeElement type, TypeMirror... arguments) {
        if (containing == null) {
            return getDeclaredType(type, arguments);
        }
        HostDeclaredType outer = (HostDeclaredType) host(containing);
        HostTypeElement element = (HostTypeElement) type;
        if (!outer.asElement().equals(element.getEnclosingElement())) {
            throw new IllegalArgumentException(containing.toString());
        }
        return declared(element.isInner() ? outer : model.types().none(), element, outer.isParameterized(),
            arguments);
    }

    private DeclaredType declared(HostType enclosing, HostTypeElement element, boolean isWritten,
            TypeMirror... arguments) {
        if (arguments.length != element.getTypeParameters().size()) {
            throw new IllegalArgumentException("Incorrect number of type arguments");
        }
        List<HostType> types = Arrays.stream(arguments).map(one -> checked(one, NO_ARGUMENTS))
            .collect(Collectors.toList());
        boolean isWrittenType = isWritten && enclosing instanceof HostDeclaredType;
        return new HostDeclaredType(model, element, enclosing, isWrittenType, types);
    }
}
