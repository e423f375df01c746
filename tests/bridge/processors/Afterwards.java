import java.util.Set;
import javax.annotation.processing.AbstractProcessor;
import javax.annotation.processing.ProcessingEnvironment;
import javax.annotation.processing.RoundEnvironment;
import javax.annotation.processing.SupportedAnnotationTypes;
import javax.lang.model.SourceVersion;
import javax.lang.model.element.TypeElement;

/** Asks for a type when all rounds are over. */
@SupportedAnnotationTypes("*")
public final class Afterwards extends AbstractProcessor {
    @Override
    public SourceVersion getSupportedSourceVersion() {
        return SourceVersion.latestSupported();
    }

    @Override
    public synchronized void init(ProcessingEnvironment environment) {
        super.init(environment);
        Runtime.getRuntime().addShutdownHook(new Thread(this::ask));
    }

    private void ask() {
        try {
            processingEnv.getElementUtils().getTypeElement("none.Such");
        } catch (UnsupportedOperationException e) {
            System.err.println(e.getMessage());
        }
    }

    @Override
    public boolean process(Set<? extends TypeElement> annotations, RoundEnvironment environment) {
        return false;
    }
}
