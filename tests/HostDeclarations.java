import java.io.IOException;
import java.io.UncheckedIOException;
import java.io.Writer;
import java.nio.file.Files;
import java.nio.file.Path;
import java.util.Arrays;
import java.util.List;
import java.util.Map;
import java.util.Set;
import java.util.TreeSet;
import javax.annotation.processing.AbstractProcessor;
import javax.annotation.processing.RoundEnvironment;
import javax.annotation.processing.SupportedAnnotationTypes;
import javax.lang.model.SourceVersion;
import javax.lang.model.element.Element;
import javax.lang.model.element.PackageElement;
import javax.lang.model.element.TypeElement;
import javax.tools.StandardLocation;

/** Writes a file with the declarations of all roots, as the host of this processor has them. */
@SupportedAnnotationTypes("*")
public final class HostDeclarations extends AbstractProcessor {
    private static final String TEXT = "text";
    private static final String MEMBERS = "members";

    @Override
    public SourceVersion getSupportedSourceVersion() {
        return SourceVersion.latest();
    }

    @Override
    public boolean process(Set<? extends TypeElement> offered, RoundEnvironment round) {
        if (round.processingOver()) {
            return false;
        }
        Set<String> names = new TreeSet<>();
        for (Element root : round.getRootElements()) {
            names.add(root + (root instanceof PackageElement ? ".package-info" : ""));
        }
        Declarations declarations = new Declarations(names, "", false);
        declarations.init(processingEnv);
        declarations.process(offered, round);
        try (Writer file = processingEnv.getFiler()
                .createResource(StandardLocation.CLASS_OUTPUT, "", "declarations").openWriter()) {
            for (Map.Entry<String, String> one : declarations.texts.entrySet()) {
                file.write(TEXT + "\t" + one.getKey() + "\t" + one.getValue() + "\n");
            }
            for (Map.Entry<String, List<String>> one : declarations.members.entrySet()) {
                file.write(MEMBERS + "\t" + one.getKey() + "\t" + String.join("\t", one.getValue()) + "\n");
            }
        } catch (IOException e) {
            throw new UncheckedIOException(e);
        }
        return false;
    }

    /** Reads what was written: the texts of declarations, and the keys of the members of types. */
    static void read(Path file, Map<String, String> texts, Map<String, List<String>> members) throws IOException {
        for (String line : Files.readAllLines(file)) {
            String[] parts = line.split("\t");
            if (parts[0].equals(TEXT)) {
                texts.put(parts[1], parts[2]);
            } else {
                members.put(parts[1], Arrays.asList(parts).subList(2, parts.length));
            }
        }
    }
}
