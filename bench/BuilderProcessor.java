import java.io.IOException;
import java.io.UncheckedIOException;
import java.io.Writer;
import java.util.Set;
import java.util.stream.Collectors;
import javax.annotation.processing.AbstractProcessor;
import javax.annotation.processing.RoundEnvironment;
import javax.annotation.processing.SupportedAnnotationTypes;
import javax.annotation.processing.SupportedOptions;
import javax.lang.model.SourceVersion;
import javax.lang.model.element.Element;
import javax.lang.model.element.ElementKind;
import javax.lang.model.element.Modifier;
import javax.lang.model.element.PackageElement;
import javax.lang.model.element.TypeElement;
import javax.lang.model.util.ElementFilter;

/**
 * The processor {@code builder} of the program for a compiler of Java: for each root class with the annotation it creates a source with a field
 * for each of the class's fields that is not static.
 */
@SupportedAnnotationTypes("apt.demo.Builder")
@SupportedOptions("org.gradle.annotation.processing.isolating")
public final class BuilderProcessor extends AbstractProcessor {
    // Of how many enclosed elements of a class the fields are taken.
    private static final int MOST = 1000;

    @Override
    public SourceVersion getSupportedSourceVersion() {
        return SourceVersion.latestSupported();
    }

    @Override
    public boolean process(Set<? extends TypeElement> annotations, RoundEnvironment round) {
        for (TypeElement annotation : annotations) {
            for (TypeElement root : ElementFilter.typesIn(round.getRootElements())) {
                if (root.getKind() == ElementKind.CLASS && carries(root, annotation)) {
                    create(root);
                }
            }
        }
        return true;
    }

    private static boolean carries(Element root, TypeElement annotation) {
        return root.getAnnotationMirrors().stream().anyMatch(each -> each.getAnnotationType().asElement().equals(annotation));
    }

    private void create(TypeElement root) {
        try (Writer writer = processingEnv.getFiler().createSourceFile(root.getQualifiedName() + "Builder", root).openWriter()) {
            writer.write(text(root));
        } catch (IOException error) {
            throw new UncheckedIOException(error);
        }
    }

    private String text(TypeElement root) {
        PackageElement of = processingEnv.getElementUtils().getPackageOf(root);
        return (of.isUnnamed() ? "" : "package " + of.getQualifiedName() + ";\n")
                + "public class " + root.getSimpleName() + "Builder {\n"
                + root.getEnclosedElements().stream().limit(MOST)
                        .filter(each -> each.getKind() == ElementKind.FIELD && !each.getModifiers().contains(Modifier.STATIC))
                        .map(each -> "  public " + each.asType() + " " + each.getSimpleName() + ";\n").collect(Collectors.joining())
                + "}\n";
    }
}
