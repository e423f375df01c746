import java.io.FileNotFoundException;
import java.io.IOException;
import java.io.OutputStream;
import java.io.Writer;
import java.nio.charset.StandardCharsets;
import java.nio.file.NoSuchFileException;
import java.util.Set;
import javax.annotation.processing.AbstractProcessor;
import javax.annotation.processing.Filer;
import javax.annotation.processing.FilerException;
import javax.annotation.processing.RoundEnvironment;
import javax.lang.model.SourceVersion;
import javax.lang.model.element.Element;
import javax.lang.model.element.ElementKind;
import javax.lang.model.element.TypeElement;
import javax.tools.Diagnostic;
import javax.tools.FileObject;
import javax.tools.StandardLocation;

/** Makes files, also such as can't be made, and says by notes what became of them. */
public final class Making extends AbstractProcessor {
    private int round;

    @Override
    public Set<String> getSupportedAnnotationTypes() {
        return Set.of("java.lang.Deprecated", "not a name");
    }

    @Override
    public Set<String> getSupportedOptions() {
        return Set.of("given", "other", "open");
    }

    @Override
    public SourceVersion getSupportedSourceVersion() {
        return SourceVersion.RELEASE_8;
    }

    @Override
    public boolean process(Set<? extends TypeElement> annotations, RoundEnvironment environment) {
        round++;
        note("round " + round + " of " + environment.getRootElements() + ", given "
            + processingEnv.getOptions());
        Filer filer = processingEnv.getFiler();
        for (Element element : environment.getElementsAnnotatedWith(Deprecated.class)) {
            processingEnv.getMessager().printMessage(Diagnostic.Kind.WARNING, "deprecated", element);
            if (element.getKind() == ElementKind.CLASS && round < 3) {
                String name = "made." + element.getSimpleName() + "_";
                attempt("source", () -> write(filer.createSourceFile(name, element),
                    "package made; @Deprecated class "
                    + element.getSimpleName() + "_ {}\n"));
                attempt("again", () -> write(filer.createSourceFile(name, element), "no"));
            }
        }
        if (round == 1) {
            others(filer);
        }
        if (environment.processingOver()) {
            attempt("late", () -> write(filer.createSourceFile("made.Late"),
                "package made; class Late {}\n"));
        }
        return round == 2;
    }

    private void others(Filer filer) {
        attempt("there", () -> write(filer.createSourceFile("p.Old"), "no"));
        if (processingEnv.getOptions().containsKey("open")) {
            attempt("open", () -> filer.createSourceFile("made.Open").openWriter().write("no"));
        }
        attempt("bad name", () -> write(filer.createSourceFile("made.1"), "no"));
        attempt("package", () -> write(filer.createSourceFile("made.package-info"), "package made;\n"));
        attempt("before", () -> read(filer.getResource(StandardLocation.CLASS_OUTPUT, "q", "a/b.txt")));
        attempt("resource", () -> write(filer.createResource(StandardLocation.CLASS_OUTPUT, "q", "a/b.txt"),
            "é\n"));
        attempt("after", () -> read(filer.getResource(StandardLocation.CLASS_OUTPUT, "q", "a/b.txt")));
        attempt("resource again", () -> filer.createResource(StandardLocation.CLASS_OUTPUT, "q", "a/b.txt"));
        attempt("bad resource", () -> filer.createResource(StandardLocation.CLASS_OUTPUT, "", "../b"));
        attempt("no output", () -> filer.createResource(StandardLocation.CLASS_PATH, "", "b"));
    }

    private interface Attempt {
        void run() throws IOException;
    }

    private void attempt(String what, Attempt attempt) {
        try {
            attempt.run();
            note(what + ": done");
        } catch (FilerException | NoSuchFileException | FileNotFoundException e) {
            note(what + ": " + e.getClass().getSimpleName());
        } catch (IOException | RuntimeException e) {
            note(what + ": " + e);
        }
    }

    private void note(String text) {
        processingEnv.getMessager().printMessage(Diagnostic.Kind.NOTE, text);
    }

    private static void write(FileObject file, String text) throws IOException {
        if (file.getName().endsWith("b.txt")) {
            try (OutputStream stream = file.openOutputStream()) {
                stream.write(text.getBytes(StandardCharsets.UTF_8));
            }
        } else {
            try (Writer writer = file.openWriter()) {
                writer.write(text);
            }
        }
    }

    private static void read(FileObject file) throws IOException {
        file.openInputStream().close();
    }
}
