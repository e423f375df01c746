package dinxobhe.bridge;

import dinxobhe.frames.Answers;
import dinxobhe.frames.Frame;
import dinxobhe.frames.Tag;
import java.util.ArrayList;
import java.util.LinkedHashSet;
import java.util.Set;
import javax.annotation.processing.ProcessingEnvironment;
import javax.annotation.processing.Processor;
import javax.lang.model.SourceVersion;

/**
 * What a processor supports. It is asked before the first round, when the host answers no questions. So an
 * instance is asked that wasn't initialised; where it fails, it is initialised with an environment in which
 * no type is found.
 */
final class Supported {
    private static final String ANY = "*";
    private static final String ANY_BELOW = ".*";

    private final Set<String> patterns = new LinkedHashSet<>();
    private final Set<String> options = new LinkedHashSet<>();

    private Supported() {}

    static Supported by(Processor processor, ProcessingEnvironment environment) {
        try {
            return asked(processor);
        } catch (RuntimeException | Error e) {
            processor.init(environment);
            return asked(processor);
        }
    }

    /** Supports all annotations, and no options. */
    static Supported everything() {
        Supported supported = new Supported();
        supported.patterns.add(ANY);
        return supported;
    }

    static Supported asked(Processor processor) {
        Supported supported = new Supported();
        for (String pattern : processor.getSupportedAnnotationTypes()) {
            // The name of a module may stand in front, and the host has none.
            String name = pattern.substring(pattern.indexOf('/') + 1);
            if (isPattern(name)) {
                supported.patterns.add(name);
            }
        }
        supported.options.addAll(processor.getSupportedOptions());
        return supported;
    }

    private static boolean isPattern(String text) {
        return text.equals(ANY) || SourceVersion.isName(text.endsWith(ANY_BELOW) ? front(text) : text);
    }

    private static String front(String pattern) {
        return pattern.substring(0, pattern.length() - ANY_BELOW.length());
    }

    /** Whether all annotations are supported, and rounds without any. */
    boolean isEverything() {
        return patterns.contains(ANY);
    }

    /** Whether an annotation of this name is supported. */
    boolean isSupported(String name) {
        return patterns.stream().anyMatch(pattern -> pattern.equals(ANY) || pattern.equals(name)
            || pattern.endsWith(ANY_BELOW) && name.startsWith(front(pattern) + "."));
    }

    /** The frame that tells the host. */
    Frame hello(Set<String> furtherOptions, Answers.Claim claim) {
        Set<String> all = new LinkedHashSet<>(options);
        all.addAll(furtherOptions);
        return new Frame(Tag.HELLO, new ArrayList<>(patterns), new ArrayList<>(all), claim);
    }
}
