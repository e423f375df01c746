package dinxobhe.bridge;

import dinxobhe.frames.Frame;
import dinxobhe.model.Model;
import java.lang.annotation.Annotation;
import java.util.Arrays;
import java.util.Collections;
import java.util.LinkedHashSet;
import java.util.List;
import java.util.Optional;
import java.util.Set;
import javax.annotation.processing.RoundEnvironment;
import javax.lang.model.element.Element;
import javax.lang.model.element.ElementKind;
import javax.lang.model.element.TypeElement;

/** A round, as a processor sees it. */
final class HostRoundEnvironment implements RoundEnvironment {
    private static final String NO_ANNOTATION = "The argument does not represent an annotation type: ";

    private final Model model;
    private final boolean isOver;
    private final boolean hasError;
    private final boolean hasRoots;

    HostRoundEnvironment(Model model, Frame round) {
        this.model = model;
        isOver = round.truth(1);
        hasError = round.truth(2);
        hasRoots = !round.list(4, String.class).isEmpty();
    }

    @Override
    public boolean processingOver() {
        return isOver;
    }

    @Override
    public boolean errorRaised() {
        return hasError;
    }

    @Override
    public Set<? extends Element> getRootElements() {
        return hasRoots ? set(model.roots()) : Set.of();
    }

    private static Set<Element> set(List<? extends Element> elements) {
        return Collections.unmodifiableSet(new LinkedHashSet<>(elements));
    }

    @Override
    public Set<? extends Element> getElementsAnnotatedWith(TypeElement annotation) {
        return getElementsAnnotatedWithAny(annotation);
    }

    @Override
    public Set<? extends Element> getElementsAnnotatedWithAny(TypeElement... annotations) {
        for (TypeElement annotation : annotations) {
            check(annotation.getKind() == ElementKind.ANNOTATION_TYPE, annotation);
        }
        return hasRoots ? set(model.annotatedWithAny(Arrays.asList(annotations))) : Set.of();
    }

    @Override
    public Set<? extends Element> getElementsAnnotatedWith(Class<? extends Annotation> annotation) {
        return getElementsAnnotatedWithAny(Set.of(annotation));
    }

    @Override
    public Set<? extends Element> getElementsAnnotatedWithAny(Set<Class<? extends Annotation>> annotations) {
        annotations.forEach(annotation -> check(annotation.isAnnotation(), annotation));
        return getElementsAnnotatedWithAny(annotations.stream().map(Class::getCanonicalName)
            .flatMap(name -> Optional.ofNullable(name).flatMap(model::annotation).stream())
            .toArray(TypeElement[]::new));
    }

    private static void check(boolean isAnnotation, Object argument) {
        if (!isAnnotation) {
            throw new IllegalArgumentException(NO_ANNOTATION + argument);
        }
    }

    @Override
    public String toString() {
        return String.format("[errorRaised=%b, rootElements=%s, processingOver=%b]", hasError,
            getRootElements(), isOver);
    }
}
