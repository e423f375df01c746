package dinxobhe.model;

import dinxobhe.frames.NamedValue;
import dinxobhe.frames.Ref;
import dinxobhe.frames.WrittenAnnotation;
import java.util.Collections;
import java.util.LinkedHashMap;
import java.util.List;
import java.util.Map;
import java.util.Optional;
import java.util.stream.Collectors;
import javax.lang.model.element.AnnotationMirror;
import javax.lang.model.element.AnnotationValue;
import javax.lang.model.element.ExecutableElement;
import javax.lang.model.type.DeclaredType;
import javax.lang.model.util.ElementFilter;

/** An annotation. Its values have the types of the annotation interface's methods. */
final class HostAnnotationMirror implements AnnotationMirror {
    private final HostType type;
    private final boolean isWritten;
    private final Kept<Map<ExecutableElement, AnnotationValue>> values;

    private HostAnnotationMirror(HostType type, boolean isWritten,
            Kept<Map<ExecutableElement, AnnotationValue>> values) {
        this.type = type;
        this.isWritten = isWritten;
        this.values = values;
    }

    /** An annotation that is written at a place. */
    static HostAnnotationMirror of(Model model, WrittenAnnotation written, Ref place) {
        HostType type = model.types().of(written.type(), place);
        return new HostAnnotationMirror(type, true,
            new Kept<>(model, () -> values(model, type, written, place)));
    }

    /** The annotation that holds some of the same type, which are written one by one. */
    static HostAnnotationMirror containing(Model model, HostDeclaredType container,
            List<AnnotationMirror> held) {
        List<AnnotationValue> items =
            held.stream().map(HostAnnotationValue::new).collect(JavacList.collector());
        return new HostAnnotationMirror(container, false, new Kept<>(model, () -> {
            Optional<ExecutableElement> method = method(container, "value");
            return method.<Map<ExecutableElement, AnnotationValue>>map(
                one -> Map.of(one, new HostAnnotationValue(items))).orElse(Map.of());
        }));
    }

    private static Map<ExecutableElement, AnnotationValue> values(Model model, HostType type,
            WrittenAnnotation written, Ref place) {
        Map<ExecutableElement, AnnotationValue> values = new LinkedHashMap<>();
        for (NamedValue named : written.values()) {
            method(type, named.name()).ifPresent(method -> values.put(method,
                AnnotationValues.of(model, named.value(), (HostType) method.getReturnType(), place)));
        }
        return Collections.unmodifiableMap(values);
    }

    private static Optional<ExecutableElement> method(HostType type, String name) {
        if (!(type instanceof HostDeclaredType)) {
            return Optional.empty();
        }
        List<? extends HostElement> members = ((HostDeclaredType) type).asElement().getEnclosedElements();
        return ElementFilter.methodsIn(members).stream()
            .filter(method -> method.getSimpleName().contentEquals(name)).findFirst();
    }

    @Override
    public DeclaredType getAnnotationType() {
        return (DeclaredType) type;
    }

    HostType type() {
        return type;
    }

    /** Whether it stands in a source, and does not only hold others that do. */
    boolean isWritten() {
        return isWritten;
    }

    /** The annotations in its arrays. */
    List<Object> held() {
        return getElementValues().values().stream().map(AnnotationValue::getValue)
            .filter(value -> value instanceof List).flatMap(list -> ((List<?>) list).stream())
            .collect(Collectors.toList());
    }

    /** Whether the annotation interface has this binary name. */
    boolean isOf(String binaryName) {
        return type instanceof HostDeclaredType
            && HostElements.binaryName(((HostDeclaredType) type).asElement()).equals(binaryName);
    }

    @Override
    public Map<ExecutableElement, AnnotationValue> getElementValues() {
        return values.get();
    }

    @Override
    public String toString() {
        Map<ExecutableElement, AnnotationValue> written = getElementValues();
        String texts = written.entrySet().stream().map(entry -> {
            String name = entry.getKey().getSimpleName().toString();
            return (written.size() > 1 || !name.equals("value") ? name + "=" : "") + entry.getValue();
        }).collect(Collectors.joining(", "));
        return "@" + type + (written.isEmpty() ? "" : "(" + texts + ")");
    }
}
