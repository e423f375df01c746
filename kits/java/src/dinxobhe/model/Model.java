package dinxobhe.model;

import dinxobhe.frames.Info;
import dinxobhe.frames.Mirror;
import dinxobhe.frames.Ref;
import java.util.Collection;
import java.util.Comparator;
import java.util.List;
import java.util.Map;
import java.util.Optional;
import java.util.Set;
import java.util.concurrent.ConcurrentHashMap;
import java.util.function.Predicate;
import java.util.stream.Collectors;
import javax.lang.model.element.Element;
import javax.lang.model.element.ElementKind;
import javax.lang.model.element.PackageElement;
import javax.lang.model.element.TypeElement;
import javax.lang.model.util.Elements;
import javax.lang.model.util.Types;

/**
 * The elements and types of a build, fetched from the host where they are asked for. There is one object for
 * an element in all rounds; what it names is fetched anew in each round.
 */
public final class Model {
    private final Questions questions;
    private final TypeReader types = new TypeReader(this);
    // A processor may ask from several threads. An element that is made twice is equal to itself.
    private final Map<Ref, HostElement> elements = new ConcurrentHashMap<>();
    private final Map<String, Optional<HostTypeElement>> byName = new ConcurrentHashMap<>();
    private final HostTypes typeUtils = new HostTypes(this);
    private final HostElements elementUtils = new HostElements(this);
    private volatile int round;

    public Model(Host host) {
        questions = new Questions(host);
    }

    /** What was fetched before is no longer used. */
    public void beginRound() {
        round++;
        byName.clear();
    }

    int round() {
        return round;
    }

    Questions questions() {
        return questions;
    }

    TypeReader types() {
        return types;
    }

    public Elements elementUtils() {
        return elementUtils;
    }

    public Types typeUtils() {
        return typeUtils;
    }

    HostTypes hostTypes() {
        return typeUtils;
    }

    HostElements hostElements() {
        return elementUtils;
    }

    // Elements.

    HostElement element(Ref ref) {
        HostElement known = elements.get(ref);
        if (known == null) {
            known = made(ref);
            elements.put(ref, known);
        }
        return known;
    }

    private HostElement made(Ref ref) {
        if (ref.isPackage()) {
            return new HostPackageElement(this, ref);
        }
        Info info = questions.info(ref);
        switch (info.kind()) {
            case ENUM:
            case CLASS:
            case ANNOTATION_TYPE:
            case INTERFACE:
                return new HostTypeElement(this, ref, info);
            case METHOD:
            case CONSTRUCTOR:
                return new HostExecutableElement(this, ref, info);
            case TYPE_PARAMETER:
                return new HostTypeParameterElement(this, ref, info);
            default:
                return new HostVariableElement(this, ref, info);
        }
    }

    <T extends Element> List<T> elements(List<Ref> refs, Class<T> type) {
        return refs.stream().map(ref -> type.cast(element(ref))).collect(JavacList.collector());
    }

    HostTypeElement typeElement(Ref ref) {
        return (HostTypeElement) element(ref);
    }

    HostPackageElement packageOf(Ref ref) {
        return (HostPackageElement) element(Ref.ofPackage(ref.packageName()));
    }

    Optional<HostTypeElement> typeElement(String name) {
        Optional<HostTypeElement> known = byName.get(name);
        if (known == null) {
            known = questions.typeElement(name).map(this::typeElement);
            byName.put(name, known);
        }
        return known;
    }

    Optional<PackageElement> packageElement(String name) {
        return questions.packageElement(name).map(ref -> (PackageElement) element(ref));
    }

    /** The type with this name, or else an error type with it. */
    HostType type(String name) {
        return typeElement(name).<HostType>map(type -> type.asType())
            .orElseGet(() -> types.of(Mirror.error(name), null));
    }

    /** The types that are annotations offered to a processor, by their names. */
    public Optional<TypeElement> annotation(String name) {
        return typeElement(name).map(type -> type);
    }

    /** The round's roots in the order of javac: the packages behind the types. */
    public List<Element> roots() {
        return elements(questions.roots(), Element.class).stream()
            .sorted(Comparator.comparing(root -> root.getKind() == ElementKind.PACKAGE))
            .collect(Collectors.toList());
    }

    /** The elements in the round's roots on which one of some annotations is present, in javac's order. */
    public List<Element> annotatedWithAny(Collection<? extends TypeElement> annotations) {
        return new Presence(this).annotatedWithAny(annotations.stream()
            .filter(one -> one instanceof HostTypeElement).map(HostTypeElement.class::cast)
            .collect(Collectors.toList()));
    }

    /**
     * The annotations that javac offers where the host offers those of these names.
     *
     * @param isSupported whether the processor supports an annotation of a name
     */
    public Set<TypeElement> offered(List<String> names, Predicate<String> isSupported) {
        return new Presence(this).offered(names, isSupported);
    }

    /** The ref of an element that a processor handed in, if it is one of the host's. */
    public static Optional<Ref> refOf(Element element) {
        return element instanceof HostElement ? Optional.of(((HostElement) element).ref()) : Optional.empty();
    }
}
