import java.io.IOException;
import java.io.PrintStream;
import java.nio.charset.StandardCharsets;
import java.nio.file.Files;
import java.nio.file.Path;
import java.util.List;
import java.util.Set;
import javax.annotation.processing.AbstractProcessor;
import javax.annotation.processing.RoundEnvironment;
import javax.lang.model.SourceVersion;
import javax.lang.model.element.Element;
import javax.lang.model.element.ElementKind;
import javax.lang.model.element.TypeElement;
import javax.lang.model.type.TypeMirror;
import javax.tools.JavaCompiler;
import javax.tools.ToolProvider;

/**
 * Prints what class files declare, in the words of the measured program: for each field the name of the type around it,
 * its own name and its type, and for each type its name and its supertypes. The first word is a class path, and the
 * second a file with the name of a top-level type on each line.
 */
final class StubBench extends AbstractProcessor {
    private final List<String> names;
    private final PrintStream out = new PrintStream(System.out, false, StandardCharsets.UTF_8);
    private boolean isBegun;

    private StubBench(List<String> names) {
        this.names = names;
    }

    @Override
    public Set<String> getSupportedAnnotationTypes() {
        return Set.of("*");
    }

    @Override
    public SourceVersion getSupportedSourceVersion() {
        return SourceVersion.latest();
    }

    @Override
    public boolean process(Set<? extends TypeElement> annotations, RoundEnvironment round) {
        if (!isBegun) {
            isBegun = true;
            names.forEach(name -> tell(processingEnv.getElementUtils().getTypeElement(name)));
            out.flush();
        }
        return false;
    }

    private void tell(TypeElement type) {
        out.print(type.getQualifiedName() + " extends " + Javac.words(type.getSuperclass()));
        for (TypeMirror each : type.getInterfaces()) {
            out.print(" " + Javac.words(each));
        }
        out.println();
        for (Element each : type.getEnclosedElements()) {
            if (each.getKind() == ElementKind.FIELD) {
                out.println(type.getQualifiedName() + " " + each.getSimpleName() + " " + Javac.words(each.asType()));
            } else if (each.getKind().isClass() || each.getKind().isInterface()) {
                tell((TypeElement) each);
            }
        }
    }

    public static void main(String[] words) throws IOException {
        JavaCompiler compiler = ToolProvider.getSystemJavaCompiler();
        JavaCompiler.CompilationTask task = compiler.getTask(null, null, null,
            List.of("-proc:only", "-classpath", words[0]), List.of("java.lang.Object"), null);
        task.setProcessors(List.of(new StubBench(Files.readAllLines(Path.of(words[1])))));
        task.call();
    }
}
