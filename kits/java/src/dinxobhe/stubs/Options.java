package dinxobhe.stubs;

import java.io.File;
import java.nio.file.Path;
import java.nio.file.Paths;
import java.util.ArrayList;
import java.util.Iterator;
import java.util.List;
import java.util.stream.Stream;

/** What the words of the command line ask for. */
final class Options {
    static final String USAGE = String.join("\n",
        "usage: stubs OUT [JAR].. [OPTION]..",
        "",
        "Writes declarations of libraries as Java files below OUT, which has to be empty or absent.",
        "The libraries are the JARs, each a jar or a folder of class files, and with --jdk the JDK that runs this.",
        "All public types of the JARs are written, or with --for those that sources name; and what these name.",
        "",
        "  --for SRC         only what the declarations of the Java files below SRC name",
        "  --jdk             types of the JDK too, where something names them",
        "  --module NAME     all exported types of this module of the JDK, such as java.base",
        "  --release N       the JDK as it was in release N, 9 or later",
        "  --asked-by JARS   also the types whose names are in these jars, which are those of the processors",
        "  --also NAME       also this type",
        "  --services        writes below res/META-INF which processors the jars of --asked-by have, or else the",
        "                    JARs, and of which kinds, and prints an apt.json with a row for each",
        "",
        "JARS are joined by " + File.pathSeparator + ". --for, --module, --asked-by and --also may be repeated.",
        "The status is 0 if all was written, 1 if something is wrong with a file, 2 if the words are wrong.");

    private static final int FIRST_RELEASE = 9;

    private Path out;
    private final List<Path> libraries = new ArrayList<>();
    private final List<Path> sources = new ArrayList<>();
    private final List<String> modules = new ArrayList<>();
    private final List<Path> askers = new ArrayList<>();
    private final List<String> also = new ArrayList<>();
    private String release;
    private boolean jdk;
    private boolean services;

    private Options() {}

    static Options of(List<String> words) throws WrongWords {
        Options options = new Options();
        for (Iterator<String> rest = words.iterator(); rest.hasNext(); ) {
            String word = rest.next();
            if (word.startsWith("-")) {
                options.option(word, rest);
            } else if (options.out == null) {
                options.out = Paths.get(word);
            } else {
                options.libraries.add(Paths.get(word));
            }
        }
        options.check();
        return options;
    }

    private void option(String option, Iterator<String> rest) throws WrongWords {
        switch (option) {
            case "--jdk":
                jdk = true;
                break;
            case "--services":
                services = true;
                break;
            case "--for":
                sources.add(Paths.get(value(option, rest)));
                break;
            case "--module":
                modules.add(value(option, rest));
                jdk = true;
                break;
            case "--release":
                release = release(value(option, rest));
                break;
            case "--asked-by":
                Stream.of(value(option, rest).split(File.pathSeparator)).filter(jar -> !jar.isEmpty())
                    .map(Paths::get).forEach(askers::add);
                break;
            case "--also":
                also.add(value(option, rest));
                break;
            default:
                throw new WrongWords("there is no option " + option);
        }
    }

    private static String value(String option, Iterator<String> rest) throws WrongWords {
        if (!rest.hasNext()) {
            throw new WrongWords(option + " needs a word after it");
        }
        return rest.next();
    }

    private static String release(String text) throws WrongWords {
        if (!text.matches("[1-9][0-9]{0,2}") || Integer.parseInt(text) < FIRST_RELEASE) {
            throw new WrongWords("--release " + text + ": not a number from " + FIRST_RELEASE);
        }
        return text;
    }

    private void check() throws WrongWords {
        if (out == null) {
            throw new WrongWords("there is no folder OUT");
        }
        if (libraries.isEmpty() && !jdk) {
            throw new WrongWords("there is no library: give a JAR, --jdk or --module");
        }
        boolean isEmpty = Stream.of(libraries, sources, modules, askers, also).allMatch(List::isEmpty);
        if (isEmpty) {
            throw new WrongWords("nothing names a type: give a JAR, --module, --for, --asked-by or --also");
        }
        if (services && processorPath().isEmpty()) {
            throw new WrongWords("--services needs a JAR or --asked-by");
        }
    }

    /** The folder below which the files are written. */
    Path out() {
        return out;
    }

    /** The jars and folders of class files. */
    List<Path> libraries() {
        return libraries;
    }

    /** The folders of the project's sources. Where there is none, all of the libraries is written. */
    List<Path> sources() {
        return sources;
    }

    /** The modules of the JDK of which all exported types are written. */
    List<String> modules() {
        return modules;
    }

    /** The jars of processors that ask for types by name. */
    List<Path> askers() {
        return askers;
    }

    /** Where processors are looked for: as for javac in the libraries, where no other jars are said to have them. */
    List<Path> processorPath() {
        return askers.isEmpty() ? libraries : askers;
    }

    /** Further types that are written, by their canonical names. */
    List<String> also() {
        return also;
    }

    /** Whether types of the JDK are written. */
    boolean jdk() {
        return jdk;
    }

    /** Whether it is written which processors there are. */
    boolean services() {
        return services;
    }

    /** The options of the Java compiler that reads the libraries. */
    List<String> compilerOptions() {
        List<String> words = new ArrayList<>(List.of("-proc:only", "-Xlint:none"));
        if (release != null) {
            words.addAll(List.of("--release", release));
        }
        if (!modules.isEmpty()) {
            words.addAll(List.of("--add-modules", String.join(",", modules)));
        }
        return words;
    }
}
