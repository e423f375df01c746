import java.util.Set;
import javax.annotation.processing.AbstractProcessor;
import javax.annotation.processing.RoundEnvironment;
import javax.annotation.processing.SupportedAnnotationTypes;
import javax.lang.model.SourceVersion;
import javax.lang.model.element.TypeElement;

/** Supports one annotation and does nothing. It wants to be asked. */
@SupportedAnnotationTypes("q.A")
public final class PresenceBench extends AbstractProcessor {
    private boolean isAsked;

    @Override
    public SourceVersion getSupportedSourceVersion() {
        return SourceVersion.latest();
    }

    @Override
    public boolean process(Set<? extends TypeElement> annotations, RoundEnvironment round) {
        isAsked |= !annotations.isEmpty();
        if (round.processingOver() && !isAsked) {
            throw new IllegalStateException("no annotation is present");
        }
        return true;
    }
}
