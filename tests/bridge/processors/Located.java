import java.util.List;
import java.util.Set;
import javax.annotation.processing.AbstractProcessor;
import javax.annotation.processing.RoundEnvironment;
import javax.annotation.processing.SupportedAnnotationTypes;
import javax.lang.model.SourceVersion;
import javax.lang.model.element.Element;
import javax.lang.model.element.ElementKind;
import javax.lang.model.element.ExecutableElement;
import javax.lang.model.element.Parameterizable;
import javax.lang.model.element.TypeElement;
import javax.tools.Diagnostic;

/** Prints a note at each element that is written in the sources, or that the language adds to them. */
@SupportedAnnotationTypes("*")
public final class Located extends AbstractProcessor {
    @Override
    public SourceVersion getSupportedSourceVersion() {
        return SourceVersion.RELEASE_11;
    }

    @Override
    public boolean process(Set<? extends TypeElement> annotations, RoundEnvironment environment) {
        for (Element root : environment.getRootElements()) {
            visit(root, "");
        }
        return false;
    }

    private void visit(Element element, String around) {
        String name = around + element.getSimpleName();
        processingEnv.getMessager().printMessage(Diagnostic.Kind.NOTE, element.getKind() + " " + name, element);
        if (element.getKind() == ElementKind.PACKAGE) {
            return;
        }
        if (element instanceof Parameterizable) {
            visitAll(((Parameterizable) element).getTypeParameters(), name);
        }
        if (element instanceof ExecutableElement) {
            visitAll(((ExecutableElement) element).getParameters(), name);
        }
        visitAll(element.getEnclosedElements(), name);
    }

    private void visitAll(List<? extends Element> elements, String around) {
        for (Element element : elements) {
            visit(element, around + ".");
        }
    }
}
