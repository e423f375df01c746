package dinxobhe.model;

import java.lang.annotation.Annotation;
import java.lang.annotation.AnnotationTypeMismatchException;
import java.lang.annotation.IncompleteAnnotationException;
import java.lang.reflect.Array;
import java.lang.reflect.InvocationHandler;
import java.lang.reflect.InvocationTargetException;
import java.lang.reflect.Method;
import java.lang.reflect.Proxy;
import java.util.Arrays;
import java.util.LinkedHashMap;
import java.util.List;
import java.util.Map;
import java.util.Optional;
import java.util.function.Supplier;
import java.util.stream.Collectors;
import javax.lang.model.element.AnnotationValue;
import javax.lang.model.element.VariableElement;
import javax.lang.model.type.MirroredTypeException;
import javax.lang.model.type.MirroredTypesException;
import javax.lang.model.type.TypeMirror;

/** Answers the calls of an annotation that is an object of its own class. */
final class AnnotationHandler implements InvocationHandler {
    private final Class<? extends Annotation> type;
    /** What each method gives; where it throws an exception, a {@link Thrown}. */
    private final Map<String, Object> values = new LinkedHashMap<>();

    /** The exception that a method throws, made anew in each call. */
    private static final class Thrown {
        private final Object cause;
        private final String text;
        private final Supplier<RuntimeException> exception;

        /** An exception that is the same as those with an equal cause. */
        Thrown(Object cause, String text, Supplier<RuntimeException> exception) {
            this.cause = cause;
            this.text = text;
            this.exception = exception;
        }

        @Override
        public boolean equals(Object other) {
            return other instanceof Thrown && cause.equals(((Thrown) other).cause);
        }

        @Override
        public int hashCode() {
            return cause.hashCode();
        }
    }

    AnnotationHandler(HostAnnotationMirror mirror, Class<? extends Annotation> type) {
        this.type = type;
        Map<String, AnnotationValue> written = new LinkedHashMap<>();
        HostElements.valuesWithDefaults(mirror)
            .forEach((method, value) -> written.put(method.getSimpleName().toString(), value));
        for (Method method : type.getDeclaredMethods()) {
            Optional.ofNullable(written.get(method.getName()))
                .ifPresent(value -> values.put(method.getName(), given(method, value)));
        }
    }

    @Override
    public Object invoke(Object proxy, Method method, Object[] arguments) {
        String name = method.getName();
        if (method.getParameterCount() == 1) {
            return isEqual(arguments[0]);
        }
        switch (name) {
            case "annotationType":
                return type;
            case "hashCode":
                return hash();
            case "toString":
                return text();
            default:
                Object value = values.get(name);
                if (value == null) {
                    throw new IncompleteAnnotationException(type, name);
                }
                if (value instanceof Thrown) {
                    throw ((Thrown) value).exception.get();
                }
                return copied(value);
        }
    }

    /** An array is handed out as a copy, so that nobody changes the annotation. */
    private static Object copied(Object value) {
        if (!value.getClass().isArray()) {
            return value;
        }
        int length = Array.getLength(value);
        Object copy = Array.newInstance(value.getClass().getComponentType(), length);
        System.arraycopy(value, 0, copy, 0, length);
        return copy;
    }

    // Values.

    private static Object given(Method method, AnnotationValue value) {
        Class<?> wanted = method.getReturnType();
        Object content = value.getValue();
        if (wanted == Class.class && content instanceof TypeMirror) {
            return new Thrown(content, content + ".class",
                () -> new MirroredTypeException((TypeMirror) content));
        }
        if (wanted == Class[].class && content instanceof List) {
            List<TypeMirror> types = ((List<?>) content).stream()
                .map(item -> ((AnnotationValue) item).getValue())
                .filter(item -> item instanceof TypeMirror).map(TypeMirror.class::cast)
                .collect(Collectors.toList());
            String texts =
                types.stream().map(one -> one + ".class").collect(Collectors.joining(", ", "{", "}"));
            return new Thrown(types, texts, () -> new MirroredTypesException(types));
        }
        return converted(value, wanted).orElseGet(() -> new Thrown(new Object(), "<error>",
            () -> new AnnotationTypeMismatchException(method, foundType(value))));
    }

    /**
     * The type that javac names of a value that is not known: of a chain of names, that of all but the last.
     */
    private static String foundType(AnnotationValue value) {
        String text = ((HostAnnotationValue) value).unknownText().orElse(value.toString());
        int dot = text.lastIndexOf('.');
        return dot < 0 ? text : text.substring(0, dot);
    }

    private static Optional<Object> converted(AnnotationValue value, Class<?> wanted) {
        Object content = value.getValue();
        if (((HostAnnotationValue) value).unknownText().isPresent()) {
            return Optional.empty();
        }
        if (wanted.isArray() && content instanceof List) {
            return array((List<?>) content, wanted.getComponentType());
        }
        if (wanted.isEnum() && content instanceof VariableElement) {
            return constant(((VariableElement) content).getSimpleName().toString(), wanted);
        }
        if (wanted.isAnnotation() && content instanceof HostAnnotationMirror) {
            return Optional.of(AnnotationProxies.proxy((HostAnnotationMirror) content,
                wanted.asSubclass(Annotation.class)));
        }
        boolean fits = wanted.isInstance(content) || wanted.isPrimitive() && isBoxed(content, wanted);
        return fits ? Optional.of(content) : Optional.empty();
    }

    private static boolean isBoxed(Object content, Class<?> primitive) {
        return Array.get(Array.newInstance(primitive, 1), 0).getClass().isInstance(content);
    }

    private static Optional<Object> array(List<?> items, Class<?> component) {
        Object array = Array.newInstance(component, items.size());
        for (int i = 0; i < items.size(); i++) {
            Optional<Object> item = converted((AnnotationValue) items.get(i), component);
            if (item.isEmpty()) {
                return item;
            }
            Array.set(array, i, item.get());
        }
        return Optional.of(array);
    }

    private static Optional<Object> constant(String name, Class<?> of) {
        return Arrays.stream(of.getEnumConstants()).filter(one -> ((Enum<?>) one).name().equals(name))
            .map(Object.class::cast).findFirst();
    }

    // What all objects have.

    private boolean isEqual(Object other) {
        return type.isInstance(other) && values.entrySet().stream().allMatch(entry -> Arrays.deepEquals(
            new Object[] {entry.getValue()}, new Object[] {valueOf(other, entry.getKey())}));
    }

    private Object valueOf(Object annotation, String name) {
        boolean isOwn = Proxy.isProxyClass(annotation.getClass())
            && Proxy.getInvocationHandler(annotation) instanceof AnnotationHandler;
        if (isOwn) {
            return ((AnnotationHandler) Proxy.getInvocationHandler(annotation)).values.get(name);
        }
        try {
            Method method = type.getDeclaredMethod(name);
            method.setAccessible(true);
            return method.invoke(annotation);
        } catch (InvocationTargetException | NoSuchMethodException | IllegalAccessException e) {
            throw new IllegalStateException(e);
        }
    }

    private int hash() {
        return values.entrySet().stream()
            .mapToInt(entry -> 127 * entry.getKey().hashCode() ^ valueHash(entry.getValue())).sum();
    }

    private static int valueHash(Object value) {
        // The hash of a list of one is 31 and the hash of that one.
        return Arrays.deepHashCode(new Object[] {value}) - 31;
    }

    private String text() {
        boolean isValueAlone = values.size() == 1 && values.containsKey("value");
        return values.entrySet().stream()
            .map(entry -> (isValueAlone ? "" : entry.getKey() + "=") + text(entry.getValue()))
            .collect(Collectors.joining(", ", "@" + type.getCanonicalName() + "(", ")"));
    }

    private static String text(Object value) {
        if (value instanceof Thrown) {
            return ((Thrown) value).text;
        } else if (value instanceof Enum) {
            return ((Enum<?>) value).name();
        } else if (value instanceof Annotation) {
            return value.toString();
        } else if (!value.getClass().isArray()) {
            return JavacLiterals.of(value);
        }
        StringBuilder texts = new StringBuilder("{");
        for (int i = 0; i < Array.getLength(value); i++) {
            texts.append(i == 0 ? "" : ", ").append(text(Array.get(value, i)));
        }
        return texts.append('}').toString();
    }
}
