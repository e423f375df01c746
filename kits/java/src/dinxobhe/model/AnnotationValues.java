package dinxobhe.model;

import dinxobhe.frames.Ref;
import dinxobhe.frames.Value;
import java.util.List;
import java.util.stream.Collectors;
import javax.lang.model.element.AnnotationValue;

/** Values of annotations as javac has them, of those that the host hands on as they are written. */
final class AnnotationValues {
    private AnnotationValues() {}

    /**
     * A value in the type that is expected of it.
     *
     * @param place the element at which it is written
     */
    static AnnotationValue of(Model model, Value value, HostType type, Ref place) {
        if (type instanceof HostArrayType) {
            HostType component = ((HostArrayType) type).getComponentType();
            return new HostAnnotationValue(items(value).stream()
                .map(item -> of(model, item, component, place)).collect(JavacList.collector()));
        }
        switch (value.kind()) {
            case CLASS:
                return new HostAnnotationValue(model.types().of(value.type(), place));
            case CONSTANT:
                return new HostAnnotationValue(model.element(value.element()));
            case NESTED:
                return new HostAnnotationValue(HostAnnotationMirror.of(model, value.annotation(), place));
            case ARRAY:
                return HostAnnotationValue.unknown("{}");
            default:
                return Constants.of(value, type).map(HostAnnotationValue::new)
                    .orElseGet(() -> unknown(value));
        }
    }

    /** The items of an array. One value alone stands for an array of it. */
    private static List<Value> items(Value array) {
        if (array.kind() == Value.Kind.ARRAY) {
            return array.items();
        }
        boolean isText = array.kind() == Value.Kind.OTHER && ArrayTexts.isArray(array.text());
        return isText ? ArrayTexts.items(array.text()).stream().map(Value::other).collect(Collectors.toList())
            : List.of(array);
    }

    private static HostAnnotationValue unknown(Value value) {
        boolean hasText = value.kind() == Value.Kind.OTHER || value.kind() == Value.Kind.FLOATING;
        return HostAnnotationValue.unknown(hasText ? value.text() : "");
    }
}
