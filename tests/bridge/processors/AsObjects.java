import java.io.IOException;
import java.io.UncheckedIOException;
import java.io.Writer;
import java.util.Arrays;
import java.util.Set;
import java.util.function.Supplier;
import javax.annotation.processing.AbstractProcessor;
import javax.annotation.processing.RoundEnvironment;
import javax.lang.model.SourceVersion;
import javax.lang.model.element.Element;
import javax.lang.model.element.TypeElement;
import javax.tools.StandardLocation;
import o.Mark;
import o.Tag;

/** Writes a file on annotations as objects of their classes, which are on the processor's class path too. */
public final class AsObjects extends AbstractProcessor {
    private final StringBuilder out = new StringBuilder();

    @Override
    public Set<String> getSupportedAnnotationTypes() {
        return Set.of("o.Mark", "o.Tag", "o.Tags");
    }

    @Override
    public SourceVersion getSupportedSourceVersion() {
        return SourceVersion.latestSupported();
    }

    @Override
    public boolean process(Set<? extends TypeElement> annotations, RoundEnvironment round) {
        line("offered", () -> annotations.stream().map(Object::toString).sorted().toArray());
        for (Element root : round.getRootElements()) {
            print(root);
        }
        if (round.processingOver()) {
            try (Writer file = processingEnv.getFiler()
                    .createResource(StandardLocation.CLASS_OUTPUT, "", "objects.txt").openWriter()) {
                file.write(out.toString());
            } catch (IOException e) {
                throw new UncheckedIOException(e);
            }
        }
        return false;
    }

    private void print(Element element) {
        line(element.toString(), () -> element.getAnnotationsByType(Tag.class));
        Mark mark = element.getAnnotation(Mark.class);
        if (mark == null) {
            return;
        }
        line("type", mark::annotationType);
        line("equal", () -> mark.equals(element.getAnnotation(Mark.class)) + " "
            + (mark.hashCode() == element.getAnnotation(Mark.class).hashCode()));
        line("numbers", () -> mark.number() + " " + mark.small() + " " + mark.letter() + " " + mark.part());
        line("texts", mark::texts);
        line("kind", mark::kind);
        line("kinds", mark::kinds);
        line("class", mark::type);
        line("classes", mark::types);
        line("tag", () -> mark.tag().value() + " " + mark.tag().equals(mark.tag()));
        line("tags", () -> mark.tags().length);
        line("unknown", mark::unknown);
    }

    private void line(String name, Supplier<Object> value) {
        String text;
        try {
            Object got = value.get();
            text = got instanceof Object[] ? Arrays.toString((Object[]) got) : String.valueOf(got);
        } catch (RuntimeException e) {
            text = e.toString();
        }
        out.append(name).append(": ").append(text).append('\n');
    }
}
