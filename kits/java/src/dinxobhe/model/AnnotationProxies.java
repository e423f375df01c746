package dinxobhe.model;

import java.lang.annotation.Annotation;
import java.lang.annotation.Inherited;
import java.lang.annotation.Repeatable;
import java.lang.reflect.Array;
import java.lang.reflect.Proxy;
import java.util.ArrayList;
import java.util.List;
import java.util.Optional;
import javax.lang.model.element.AnnotationMirror;
import javax.lang.model.element.AnnotationValue;

/** Annotations as objects of their own classes, which have to be on the class path of the processor. */
final class AnnotationProxies {
    private AnnotationProxies() {}

    /** The annotation of this type, or null. */
    static <A extends Annotation> A one(List<? extends AnnotationMirror> present, Class<A> type) {
        return find(present, checked(type)).map(mirror -> proxy(mirror, type)).orElse(null);
    }

    /** The annotations of this type, those in one that contains them included. */
    static <A extends Annotation> A[] all(List<? extends AnnotationMirror> direct,
            List<? extends AnnotationMirror> present, Class<A> type) {
        Repeatable repeatable = checked(type).getAnnotation(Repeatable.class);
        List<A> found = unpacked(direct, type, repeatable);
        if (found.isEmpty() && type.isAnnotationPresent(Inherited.class)) {
            found = unpacked(present, type, repeatable);
        }
        @SuppressWarnings("unchecked")
        A[] none = (A[]) Array.newInstance(type, 0);
        return found.toArray(none);
    }

    private static <A extends Annotation> List<A> unpacked(List<? extends AnnotationMirror> annotations,
            Class<A> type, Repeatable repeatable) {
        List<A> found = new ArrayList<>();
        for (AnnotationMirror annotation : annotations) {
            HostAnnotationMirror mirror = (HostAnnotationMirror) annotation;
            if (mirror.isOf(type.getName())) {
                found.add(proxy(mirror, type));
            } else if (repeatable != null && mirror.isOf(repeatable.value().getName())) {
                mirror.getElementValues().values().stream().map(AnnotationValue::getValue).forEach(items -> {
                    for (Object item : (List<?>) items) {
                        found.add(proxy((HostAnnotationMirror) ((AnnotationValue) item).getValue(), type));
                    }
                });
            }
        }
        return found;
    }

    private static <A extends Annotation> Class<A> checked(Class<A> type) {
        if (!type.isAnnotation()) {
            throw new IllegalArgumentException("Not an annotation type: " + type);
        }
        return type;
    }

    private static Optional<HostAnnotationMirror> find(List<? extends AnnotationMirror> present,
            Class<?> type) {
        return present.stream().map(HostAnnotationMirror.class::cast)
            .filter(mirror -> mirror.isOf(type.getName())).findFirst();
    }

    static <A extends Annotation> A proxy(HostAnnotationMirror mirror, Class<A> type) {
        AnnotationHandler handler = new AnnotationHandler(mirror, type);
        return type.cast(Proxy.newProxyInstance(type.getClassLoader(), new Class<?>[] {type}, handler));
    }
}
