package dinxobhe.stubs;

import java.io.File;
import java.io.IOException;
import java.net.URISyntaxException;
import java.net.URL;
import java.nio.ByteBuffer;
import java.nio.charset.StandardCharsets;
import java.nio.file.Files;
import java.nio.file.Path;
import java.nio.file.Paths;
import java.security.MessageDigest;
import java.security.NoSuchAlgorithmException;
import java.util.ArrayList;
import java.util.LinkedHashMap;
import java.util.LinkedHashSet;
import java.util.List;
import java.util.Map;
import java.util.Set;
import java.util.function.Function;
import java.util.regex.Matcher;
import java.util.regex.Pattern;
import java.util.stream.Collectors;

/** Which processors some jars have, of which kinds they are, and how each is started. */
final class Services {
    /** The class that runs a processor for javac as a child of the host. */
    private static final String BRIDGE = "dinxobhe.Bridge";
    private static final String NAMES = "META-INF/services/javax.annotation.processing.Processor";
    private static final String KINDS = "META-INF/gradle/incremental.annotation.processors";
    private static final Path RESOURCES = Paths.get("res");
    private static final Pattern KIND_LINE =
        Pattern.compile("([^\\s,]+)\\s*,\\s*(isolating|aggregating|dynamic)", Pattern.CASE_INSENSITIVE);

    private final List<Path> jars;
    private final Set<String> names = new LinkedHashSet<>();
    private final Map<String, String> kinds = new LinkedHashMap<>();
    /** A text that changes with the files of the jars. */
    private String version;

    private Services(List<Path> jars) {
        this.jars = jars;
    }

    static Services of(List<Path> jars) throws IOException, InputFault {
        Services services = new Services(jars);
        MessageDigest digest = digest();
        for (Path jar : jars) {
            try (ClassPathEntry entry = ClassPathEntry.open(jar)) {
                services.read(entry);
                for (Path file : entry.files()) {
                    digest.update(entry.name(file).getBytes(StandardCharsets.UTF_8));
                    digest.update(Files.readAllBytes(file));
                }
            }
        }
        if (services.names.isEmpty()) {
            throw new InputFault("--services: none of the jars names a processor");
        }
        services.kinds.keySet().retainAll(services.names);
        services.version = String.format("%016x", ByteBuffer.wrap(digest.digest()).getLong());
        return services;
    }

    private void read(ClassPathEntry jar) throws IOException, InputFault {
        for (Line line : lines(jar, NAMES)) {
            if (!JavaNames.isDotted(line.text)) {
                throw line.fault("not the name of a processor");
            }
            names.add(line.text);
        }
        for (Line line : lines(jar, KINDS)) {
            Matcher matcher = KIND_LINE.matcher(line.text);
            if (!matcher.matches() || !JavaNames.isDotted(matcher.group(1))) {
                throw line.fault("not a processor and its kind");
            }
            kinds.put(matcher.group(1), matcher.group(2));
        }
    }

    /** A line of a file in a jar, without its comment. */
    private static final class Line {
        private final String place;
        private final String text;

        Line(String place, String text) {
            this.place = place;
            this.text = text;
        }

        InputFault fault(String what) {
            return new InputFault(place + ": " + what);
        }
    }

    /** The lines of a file that say something; none where there is no such file. */
    private static List<Line> lines(ClassPathEntry jar, String file) throws IOException, InputFault {
        List<Line> lines = new ArrayList<>();
        int number = 0;
        for (String line : jar.lines(file)) {
            number++;
            String text = withoutComment(line);
            if (!text.isEmpty()) {
                lines.add(new Line(jar.path() + ": " + file + ":" + number, text));
            }
        }
        return lines;
    }

    private static String withoutComment(String line) {
        int comment = line.indexOf('#');
        return (comment < 0 ? line : line.substring(0, comment)).strip();
    }

    /** Fails if one of the files is there with other lines, which may be the user's own. */
    void check() throws IOException, InputFault {
        for (Map.Entry<Path, String> file : files().entrySet()) {
            Path path = file.getKey();
            if (Files.exists(path) && !Files.readString(path).equals(file.getValue())) {
                throw new InputFault(path + ": is there already, with other lines: remove it first");
            }
        }
    }

    void write() throws IOException {
        for (Map.Entry<Path, String> file : files().entrySet()) {
            Files.createDirectories(file.getKey().getParent());
            Files.writeString(file.getKey(), file.getValue());
        }
    }

    private Map<Path, String> files() {
        Map<Path, String> files = new LinkedHashMap<>();
        files.put(RESOURCES.resolve(NAMES), lines(names, name -> name));
        if (!kinds.isEmpty()) {
            files.put(RESOURCES.resolve(KINDS), lines(kinds.keySet(), name -> name + "," + kinds.get(name)));
        }
        return files;
    }

    private static String lines(Set<String> names, Function<String, String> line) {
        return names.stream().map(name -> line.apply(name) + "\n").collect(Collectors.joining());
    }

    /** An apt.json that has a row for each processor. */
    String configuration() {
        List<String> path = new ArrayList<>(List.of(ownJar()));
        jars.forEach(jar -> path.add(jar.toString()));
        String classPath = String.join(File.pathSeparator, path);
        return names.stream()
            .map(name -> "    " + quoted(name) + ": {\"command\": "
                + quoted(List.of("java", "-cp", classPath, BRIDGE, name)) + ", \"version\": " + quoted(version) + "}")
            .collect(Collectors.joining(",\n", "{\n  \"processors\": {\n", "\n  }\n}\n"));
    }

    private static String ownJar() {
        URL place = Services.class.getProtectionDomain().getCodeSource().getLocation();
        try {
            return Paths.get(place.toURI()).toString();
        } catch (URISyntaxException e) {
            throw new IllegalStateException(e);
        }
    }

    private static MessageDigest digest() {
        try {
            return MessageDigest.getInstance("SHA-256");
        } catch (NoSuchAlgorithmException e) {
            throw new IllegalStateException(e); // every Java has it
        }
    }

    private static String quoted(List<String> texts) {
        return texts.stream().map(Services::quoted).collect(Collectors.joining(", ", "[", "]"));
    }

    /** A text in JSON of ASCII. */
    private static String quoted(String text) {
        StringBuilder quoted = new StringBuilder("\"");
        for (char c : text.toCharArray()) {
            boolean isPlain = c >= ' ' && c <= '~' && c != '"' && c != '\\';
            quoted.append(isPlain ? String.valueOf(c) : String.format("\\u%04x", (int) c));
        }
        return quoted.append('"').toString();
    }
}
