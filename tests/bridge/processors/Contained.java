import java.util.Set;
import javax.annotation.processing.AbstractProcessor;
import javax.annotation.processing.RoundEnvironment;
import javax.annotation.processing.SupportedAnnotationTypes;
import javax.lang.model.SourceVersion;
import javax.lang.model.element.TypeElement;
import javax.tools.Diagnostic;

/** Says where an annotation is present that is to contain repeated ones. It supports that one alone. */
@SupportedAnnotationTypes("r.Reps")
public class Contained extends AbstractProcessor {
    @Override
    public SourceVersion getSupportedSourceVersion() {
        return SourceVersion.latestSupported();
    }

    @Override
    public boolean process(Set<? extends TypeElement> annotations, RoundEnvironment round) {
        for (TypeElement annotation : annotations) {
            processingEnv.getMessager().printMessage(Diagnostic.Kind.NOTE,
                annotation + " at " + round.getElementsAnnotatedWith(annotation));
        }
        return false;
    }

    /** Supports those that it is to contain, too. */
    @SupportedAnnotationTypes({"r.Rep", "r.Reps"})
    public static final class Both extends Contained {}

    /** Supports all annotations. */
    @SupportedAnnotationTypes("*")
    public static final class Any extends Contained {}
}
