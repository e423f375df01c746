package dinxobhe.model;

import dinxobhe.frames.Mirror;
import dinxobhe.frames.Ref;
import java.util.List;
import java.util.Optional;
import java.util.stream.Collectors;

/**
 * Makes types of mirrors. An inner class has an enclosing type for javac always, for the host only where type
 * arguments are written on it. Where the host has none, it is told from the place at which the type is named.
 */
final class TypeReader {
    private final Model model;
    private final HostNoType none;

    TypeReader(Model model) {
        this.model = model;
        none = new HostNoType(model, Mirror.NOTHING);
    }

    HostNoType none() {
        return none;
    }

    /**
     * The type of a mirror.
     *
     * @param place the element that names the type; null where that isn't known
     */
    HostType of(Mirror mirror, Ref place) {
        switch (mirror.kind()) {
            case PRIMITIVE:
                return new HostPrimitiveType(model, mirror.primitive());
            case DECLARED:
                return declared(mirror, place);
            case ERROR:
                return new HostErrorType(model, mirror.text());
            case VARIABLE:
                return variable(mirror.element());
            case ARRAY:
                return new HostArrayType(model, of(mirror.inner().orElseThrow(), place));
            case WILDCARD:
                return new HostWildcardType(model, mirror.bound(),
                    mirror.inner().map(bound -> of(bound, place)));
            case EXECUTABLE:
                return executable(mirror, place);
            case NULL:
                return new HostNullType(model);
            default:
                return new HostNoType(model, mirror);
        }
    }

    private List<HostType> all(List<Mirror> mirrors, Ref place) {
        return mirrors.stream().map(one -> of(one, place)).collect(Collectors.toList());
    }

    private HostTypeVariable variable(Ref ref) {
        return ((HostTypeParameterElement) model.element(ref)).asType();
    }

    private HostExecutableType executable(Mirror mirror, Ref place) {
        List<HostTypeVariable> variables =
            mirror.variables().stream().map(this::variable).collect(Collectors.toList());
        return new HostExecutableType(model, variables, all(mirror.arguments(), place),
            of(mirror.inner().orElseThrow(), place), all(mirror.thrown(), place));
    }

    private HostDeclaredType declared(Mirror mirror, Ref place) {
        HostTypeElement element = model.typeElement(mirror.element());
        List<HostType> arguments = all(mirror.arguments(), place);
        Optional<Mirror> written = mirror.inner();
        HostType enclosing = written.isPresent() ? of(written.get(), place) : enclosing(element, place);
        return new HostDeclaredType(model, element, enclosing, written.isPresent(), arguments);
    }

    /** The enclosing type of an element's type where that is named without one. */
    HostType enclosing(HostTypeElement element, Ref place) {
        if (!element.isInner()) {
            return none;
        }
        HostTypeElement outer = (HostTypeElement) element.getEnclosingElement();
        if (outer.isWithinGeneric()) {
            for (Optional<HostTypeElement> around = typeAround(place); around.isPresent();
                    around = typeAround(parentOf(around.get().ref()))) {
                Optional<HostDeclaredType> found = Supertypes.as(around.get().asType(), outer);
                if (found.isPresent()) {
                    return found.get();
                }
            }
        }
        return raw(outer);
    }

    private static Ref parentOf(Ref ref) {
        return ref.isUnit() ? null : ref.parent();
    }

    /** The innermost type around a place, or at it. */
    private Optional<HostTypeElement> typeAround(Ref place) {
        Ref at = place;
        while (at != null && !at.isPackage()) {
            HostElement element = model.element(at);
            if (element instanceof HostTypeElement) {
                return Optional.of((HostTypeElement) element);
            }
            at = parentOf(at);
        }
        return Optional.empty();
    }

    /** The type of an element without arguments, as an erasure is. */
    HostDeclaredType raw(HostTypeElement element) {
        HostType enclosing = element.isInner() ? raw((HostTypeElement) element.getEnclosingElement()) : none;
        return new HostDeclaredType(model, element, enclosing, false, List.of());
    }
}
