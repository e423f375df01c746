import java.io.IOException;
import java.io.UncheckedIOException;
import java.io.Writer;
import java.util.Set;
import java.util.TreeSet;
import javax.annotation.processing.AbstractProcessor;
import javax.annotation.processing.RoundEnvironment;
import javax.annotation.processing.SupportedAnnotationTypes;
import javax.annotation.processing.SupportedOptions;
import javax.lang.model.SourceVersion;
import javax.lang.model.element.NestingKind;
import javax.lang.model.element.TypeElement;
import javax.lang.model.util.ElementFilter;
import javax.tools.StandardLocation;

/**
 * The processor {@code registry} of the program for a compiler of Java: the last round creates a resource with the names of the types at the top
 * of their files that have the annotation, in any round.
 */
@SupportedAnnotationTypes("apt.demo.Registered")
@SupportedOptions("org.gradle.annotation.processing.aggregating")
public final class RegistryProcessor extends AbstractProcessor {
    private final Set<String> names = new TreeSet<>();

    @Override
    public SourceVersion getSupportedSourceVersion() {
        return SourceVersion.latestSupported();
    }

    @Override
    public boolean process(Set<? extends TypeElement> annotations, RoundEnvironment round) {
        for (TypeElement annotation : annotations) {
            for (TypeElement each : ElementFilter.typesIn(round.getElementsAnnotatedWith(annotation))) {
                if (each.getNestingKind() == NestingKind.TOP_LEVEL) {
                    names.add(each.getQualifiedName().toString());
                }
            }
        }
        if (round.processingOver() && !names.isEmpty()) {
            create();
        }
        return true;
    }

    private void create() {
        try (Writer writer = processingEnv.getFiler()
                .createResource(StandardLocation.CLASS_OUTPUT, "", "META-INF/registry.txt").openWriter()) {
            for (String each : names) {
                writer.write(each + "\n");
            }
        } catch (IOException error) {
            throw new UncheckedIOException(error);
        }
    }
}
