package dinxobhe.stubs;

import java.io.PrintStream;
import java.util.EnumMap;
import java.util.Map;
import java.util.Set;
import java.util.TreeSet;
import java.util.stream.Collectors;
import javax.lang.model.element.Element;
import javax.lang.model.element.ElementKind;

/** What stubs do not say as the class files do, each with the names of which it is so. */
final class Notes {
    /** How many names are printed of each kind. */
    private static final int MOST = 5;

    enum Kind {
        RECORD("records, written as classes"),
        SEALED("sealed types, written as if they were not sealed"),
        ABSENT("types that no library has"),
        HIDDEN("left out, since their packages are those of modules of the JDK, which hide them"),
        CONSTANT("constants, written without their values, which no Java text means"),
        ANNOTATION("elements without one of their annotations, which has a value that no Java text means"),
        LEFT_OUT("left out, since they have or use names that are no Java names");

        private final String text;

        Kind(String text) {
            this.text = text;
        }
    }

    private final Map<Kind, Set<String>> names = new EnumMap<>(Kind.class);

    void add(Kind kind, String name) {
        names.computeIfAbsent(kind, k -> new TreeSet<>()).add(name);
    }

    void add(Kind kind, Element element) {
        add(kind, nameOf(element));
    }

    /** The name of an element, with those of the elements around it. */
    private static String nameOf(Element element) {
        Element around = element.getEnclosingElement();
        boolean isMember = around != null && !Kinds.isType(element) && around.getKind() != ElementKind.MODULE;
        return isMember ? nameOf(around) + "." + element : element.toString();
    }

    /** The names of a kind. */
    Set<String> names(Kind kind) {
        return names.getOrDefault(kind, Set.of());
    }

    /** Prints a line for each kind of which there is a name, with the first names and their number. */
    void print(PrintStream to) {
        names.forEach((kind, all) -> {
            String first = all.stream().limit(MOST).collect(Collectors.joining(", "));
            String more = all.size() > MOST ? ", .." : "";
            to.println("stubs: note: " + kind.text + " (" + all.size() + "): " + first + more);
        });
    }
}
