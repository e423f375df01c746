package dinxobhe.bridge;

import java.io.IOException;
import java.io.InputStream;
import java.net.URL;
import java.net.URLConnection;
import java.nio.charset.StandardCharsets;
import java.util.Collections;
import java.util.HashSet;
import java.util.List;
import java.util.Locale;
import java.util.Set;
import java.util.regex.Matcher;
import java.util.regex.Pattern;
import java.util.stream.Collectors;

/** The kind of a processor, as the jars say it. */
final class ProcessorKind {
    private static final String KINDS = "META-INF/gradle/incremental.annotation.processors";
    private static final String OPTION = "org.gradle.annotation.processing.";
    private static final Pattern LINE =
        Pattern.compile("\\s*([^\\s,#]+)\\s*,\\s*(isolating|aggregating)\\s*(#.*)?",
            Pattern.CASE_INSENSITIVE);

    private ProcessorKind() {}

    /** The option that says the kind of the processor; none where no jar says one, or it is dynamic. */
    static Set<String> optionsOf(Class<?> processor) throws IOException {
        Set<String> options = new HashSet<>();
        for (URL file : Collections.list(processor.getClassLoader().getResources(KINDS))) {
            for (String line : lines(file)) {
                Matcher matcher = LINE.matcher(line);
                if (matcher.matches() && matcher.group(1).equals(processor.getName())) {
                    options.add(OPTION + matcher.group(2).toLowerCase(Locale.ROOT));
                }
            }
        }
        return options;
    }

    private static List<String> lines(URL file) throws IOException {
        URLConnection connection = file.openConnection();
        connection.setUseCaches(false);
        try (InputStream content = connection.getInputStream()) {
            return new String(content.readAllBytes(), StandardCharsets.UTF_8).lines()
                .collect(Collectors.toList());
        }
    }
}
