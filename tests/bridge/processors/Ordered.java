import java.lang.annotation.Annotation;
import java.util.LinkedHashSet;
import java.util.List;
import java.util.Set;
import javax.annotation.processing.AbstractProcessor;
import javax.annotation.processing.RoundEnvironment;
import javax.annotation.processing.SupportedAnnotationTypes;
import javax.lang.model.SourceVersion;
import javax.lang.model.element.TypeElement;
import javax.tools.Diagnostic;

/** Says in which order the elements of a round come. */
@SupportedAnnotationTypes("*")
public final class Ordered extends AbstractProcessor {
    private static final Set<Class<? extends Annotation>> CLASSES =
        new LinkedHashSet<>(List.of(FunctionalInterface.class, SafeVarargs.class, Deprecated.class, Override.class));

    @Override
    public SourceVersion getSupportedSourceVersion() {
        return SourceVersion.latestSupported();
    }

    @Override
    public boolean process(Set<? extends TypeElement> annotations, RoundEnvironment round) {
        note("roots " + round.getRootElements());
        for (Class<? extends Annotation> one : CLASSES) {
            note(one + " " + round.getElementsAnnotatedWith(one));
        }
        note("classes " + round.getElementsAnnotatedWithAny(CLASSES));
        note("types " + round.getElementsAnnotatedWithAny(CLASSES.stream()
            .map(one -> processingEnv.getElementUtils().getTypeElement(one.getName())).toArray(TypeElement[]::new)));
        note("none " + round.getElementsAnnotatedWithAny() + round.getElementsAnnotatedWithAny(Set.of()));
        try {
            round.getElementsAnnotatedWithAny(processingEnv.getElementUtils().getTypeElement("java.lang.Object"));
        } catch (IllegalArgumentException e) {
            note(e.getMessage());
        }
        return false;
    }

    private void note(String text) {
        processingEnv.getMessager().printMessage(Diagnostic.Kind.NOTE, text);
    }
}
