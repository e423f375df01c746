import java.util.HashSet;
import java.util.Set;
import javax.annotation.processing.AbstractProcessor;
import javax.annotation.processing.ProcessingEnvironment;
import javax.annotation.processing.RoundEnvironment;
import javax.annotation.processing.SupportedAnnotationTypes;
import javax.annotation.processing.SupportedSourceVersion;
import javax.lang.model.SourceVersion;
import javax.lang.model.element.TypeElement;
import javax.lang.model.type.TypeMirror;
import javax.tools.Diagnostic;

/** Asks for types when it is initialised, and has no options before that. */
@SupportedAnnotationTypes("*")
@SupportedSourceVersion(SourceVersion.RELEASE_11)
public final class InInit extends AbstractProcessor {
    private Set<String> options;
    private TypeMirror object;

    @Override
    public void init(ProcessingEnvironment environment) {
        super.init(environment);
        options = new HashSet<>(Set.of("late"));
        TypeElement element = environment.getElementUtils().getTypeElement("java.lang.Object");
        object = element == null ? null : element.asType();
    }

    @Override
    public Set<String> getSupportedOptions() {
        options.add("asked");
        return options;
    }

    @Override
    public boolean process(Set<? extends TypeElement> annotations, RoundEnvironment environment) {
        processingEnv.getMessager().printMessage(Diagnostic.Kind.NOTE, "initialised with " + object);
        System.out.println("not a frame");
        return true;
    }
}
