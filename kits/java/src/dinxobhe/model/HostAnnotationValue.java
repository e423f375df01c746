package dinxobhe.model;

import java.util.List;
import java.util.Optional;
import java.util.stream.Collectors;
import javax.lang.model.element.AnnotationMirror;
import javax.lang.model.element.AnnotationValue;
import javax.lang.model.element.AnnotationValueVisitor;
import javax.lang.model.element.VariableElement;
import javax.lang.model.type.TypeMirror;

/** The value of an annotation's element. */
final class HostAnnotationValue implements AnnotationValue {
    /** What javac gives for a value that it can't tell. */
    private static final String UNKNOWN = "<error>";

    private final Object value;
    private final Optional<String> unknown;

    HostAnnotationValue(Object value) {
        this(value, Optional.empty());
    }

    private HostAnnotationValue(Object value, Optional<String> unknown) {
        this.value = value;
        this.unknown = unknown;
    }

    /** A value that is not known; the text is what was written. */
    static HostAnnotationValue unknown(String text) {
        return new HostAnnotationValue(UNKNOWN, Optional.of(text));
    }

    /** What was written, where the value is not known. */
    Optional<String> unknownText() {
        return unknown;
    }

    @Override
    public Object getValue() {
        return value;
    }

    @SuppressWarnings("unchecked")
    private List<? extends AnnotationValue> items() {
        return (List<? extends AnnotationValue>) value;
    }

    @Override
    public <R, P> R accept(AnnotationValueVisitor<R, P> visitor, P parameter) {
        if (value instanceof Boolean) {
            return visitor.visitBoolean((Boolean) value, parameter);
        } else if (value instanceof Byte) {
            return visitor.visitByte((Byte) value, parameter);
        } else if (value instanceof Character) {
            return visitor.visitChar((Character) value, parameter);
        } else if (value instanceof Double) {
            return visitor.visitDouble((Double) value, parameter);
        } else if (value instanceof Float) {
            return visitor.visitFloat((Float) value, parameter);
        } else if (value instanceof Integer) {
            return visitor.visitInt((Integer) value, parameter);
        } else if (value instanceof Long) {
            return visitor.visitLong((Long) value, parameter);
        } else if (value instanceof Short) {
            return visitor.visitShort((Short) value, parameter);
        } else if (value instanceof String) {
            return visitor.visitString((String) value, parameter);
        } else if (value instanceof TypeMirror) {
            return visitor.visitType((TypeMirror) value, parameter);
        } else if (value instanceof VariableElement) {
            return visitor.visitEnumConstant((VariableElement) value, parameter);
        } else if (value instanceof AnnotationMirror) {
            return visitor.visitAnnotation((AnnotationMirror) value, parameter);
        }
        return visitor.visitArray(items(), parameter);
    }

    @Override
    public String toString() {
        if (unknown.isPresent()) {
            return UNKNOWN;
        } else if (value instanceof TypeMirror) {
            return value + ".class";
        } else if (value instanceof VariableElement || value instanceof AnnotationMirror
                || value instanceof Short) {
            return value.toString();
        } else if (value instanceof List) {
            return items().stream().map(Object::toString).collect(Collectors.joining(", ", "{", "}"));
        }
        return JavacLiterals.of(value);
    }
}
