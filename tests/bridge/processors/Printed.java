import java.io.IOException;
import java.io.StringWriter;
import java.io.UncheckedIOException;
import java.io.Writer;
import java.util.Comparator;
import java.util.Set;
import javax.annotation.processing.AbstractProcessor;
import javax.annotation.processing.RoundEnvironment;
import javax.annotation.processing.SupportedAnnotationTypes;
import javax.lang.model.SourceVersion;
import javax.lang.model.element.Element;
import javax.lang.model.element.ElementKind;
import javax.lang.model.element.ExecutableElement;
import javax.lang.model.element.Parameterizable;
import javax.lang.model.element.TypeElement;
import javax.lang.model.util.Elements;
import javax.tools.StandardLocation;

/** Writes a file with the root elements as they are printed, and with what the language adds to them. */
@SupportedAnnotationTypes("*")
public final class Printed extends AbstractProcessor {
    private final StringWriter out = new StringWriter();

    @Override
    public SourceVersion getSupportedSourceVersion() {
        return SourceVersion.latestSupported();
    }

    @Override
    public boolean process(Set<? extends TypeElement> annotations, RoundEnvironment round) {
        round.getRootElements().stream().sorted(Comparator.comparing(Object::toString)).forEach(root -> {
            processingEnv.getElementUtils().printElements(out, root);
            visit(root);
        });
        if (round.processingOver()) {
            try (Writer file = processingEnv.getFiler()
                    .createResource(StandardLocation.CLASS_OUTPUT, "", "printed.txt").openWriter()) {
                file.write(out.toString());
            } catch (IOException e) {
                throw new UncheckedIOException(e);
            }
        }
        return false;
    }

    private void visit(Element element) {
        Elements elements = processingEnv.getElementUtils();
        String text = element.getKind() + " " + element;
        line(text + ": " + elements.getOrigin(element) + (elements.isDeprecated(element) ? ", deprecated" : ""));
        element.getAnnotationMirrors()
            .forEach(one -> line(text + " " + one + ": " + elements.getOrigin(element, one)));
        if (element.getKind() == ElementKind.PACKAGE) {
            return;
        }
        if (element instanceof Parameterizable) {
            ((Parameterizable) element).getTypeParameters().forEach(this::visit);
        }
        if (element instanceof ExecutableElement) {
            line(text + ": bridge " + elements.isBridge((ExecutableElement) element));
            ((ExecutableElement) element).getParameters().forEach(this::visit);
        }
        element.getEnclosedElements().forEach(this::visit);
    }

    private void line(String text) {
        out.write(text + "\n");
    }
}
