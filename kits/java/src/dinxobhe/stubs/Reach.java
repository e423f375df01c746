package dinxobhe.stubs;

import java.util.HashSet;
import java.util.Iterator;
import java.util.LinkedHashSet;
import java.util.Map;
import java.util.Set;
import java.util.TreeMap;
import java.util.function.Predicate;
import java.util.function.Supplier;
import javax.annotation.processing.ProcessingEnvironment;
import javax.lang.model.element.PackageElement;
import javax.lang.model.element.TypeElement;
import javax.lang.model.util.Elements;

/**
 * The files of some types and of all that these name, and so on. A file is written again where a nested type turns
 * out to be named that it does not show.
 */
final class Reach {
    private final Elements elements;
    private final Predicate<TypeElement> isWanted;
    private final Visibility visibility;
    private final DeclarationWriter writer;
    private final Notes notes;
    private final Map<String, String> files = new TreeMap<>();
    private final Set<PackageElement> packages = new HashSet<>();
    private final Set<TypeElement> added = new HashSet<>();
    /** The types whose files are to be written, for the first time or again. */
    private final Set<TypeElement> waiting = new LinkedHashSet<>();

    /**
     * @param open the packages of which members of package access are shown
     * @param isWanted whether a top-level type may have a file
     */
    Reach(ProcessingEnvironment environment, Set<String> open, Predicate<TypeElement> isWanted, Notes notes) {
        elements = environment.getElementUtils();
        this.isWanted = isWanted;
        this.notes = notes;
        visibility = new Visibility(elements, open);
        TypeTexts types = new TypeTexts(this::add, notes);
        AnnotationTexts annotations = new AnnotationTexts(types, environment.getTypeUtils(), notes);
        writer = new DeclarationWriter(visibility, types, annotations, notes);
    }

    /** Adds a type. What it names is added by {@link #files}. */
    void add(TypeElement type) {
        boolean isNew = visibility.show(type);
        TypeElement top = Kinds.outermost(type);
        if ((added.add(top) || isNew) && isWanted.test(top)) {
            waiting.add(top);
        }
    }

    /** The text of each file, by its name below the folder of the stubs. */
    Map<String, String> files() {
        while (!waiting.isEmpty()) {
            Iterator<TypeElement> first = waiting.iterator();
            TypeElement type = first.next();
            first.remove();
            PackageElement of = elements.getPackageOf(type);
            put(of, type.getSimpleName(), () -> writer.file(type, of));
            if (!of.isUnnamed() && packages.add(of)) {
                put(of, "package-info", () -> writer.packageFile(of));
            }
        }
        return files;
    }

    private void put(PackageElement of, CharSequence simpleName, Supplier<String> text) {
        String folder = of.isUnnamed() ? "" : of.getQualifiedName().toString().replace('.', '/') + "/";
        try {
            String written = text.get();
            if (!written.isEmpty()) {
                files.put(folder + simpleName + ".java", written);
            }
        } catch (Unwritable e) {
            notes.add(Notes.Kind.LEFT_OUT, of.isUnnamed() ? simpleName.toString() : of + "." + simpleName);
        }
    }
}
