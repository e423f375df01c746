import java.util.Set;
import javax.annotation.processing.AbstractProcessor;
import javax.annotation.processing.ProcessingEnvironment;
import javax.annotation.processing.RoundEnvironment;
import javax.lang.model.SourceVersion;
import javax.lang.model.element.TypeElement;
import javax.tools.Diagnostic;

/** Needs a type where it is initialised, and says its annotations only after that. */
public final class Late extends AbstractProcessor {
    private TypeElement supported;

    @Override
    public synchronized void init(ProcessingEnvironment environment) {
        super.init(environment);
        environment.getMessager().printMessage(Diagnostic.Kind.NOTE, "initialised");
        supported = environment.getElementUtils().getTypeElement("java.lang.Deprecated");
        environment.getMessager().printMessage(Diagnostic.Kind.NOTE, "supports " + supported.getQualifiedName());
    }

    @Override
    public Set<String> getSupportedAnnotationTypes() {
        return Set.of(supported.getQualifiedName().toString());
    }

    @Override
    public SourceVersion getSupportedSourceVersion() {
        return SourceVersion.latestSupported();
    }

    @Override
    public boolean process(Set<? extends TypeElement> annotations, RoundEnvironment round) {
        processingEnv.getMessager().printMessage(Diagnostic.Kind.NOTE, "asked about " + annotations);
        return false;
    }
}
