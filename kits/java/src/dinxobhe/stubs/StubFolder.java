package dinxobhe.stubs;

import java.io.IOException;
import java.nio.charset.StandardCharsets;
import java.nio.file.Files;
import java.nio.file.Path;
import java.util.Map;
import java.util.stream.Stream;

/** The folder of the stubs. */
final class StubFolder {
    // What the host reads at most.
    private static final int MOST_FILES = 20_000;
    private static final int MOST_BYTES_OF_A_FILE = 8_388_608;
    private static final int MOST_BYTES = 16_777_216;

    private final Path folder;

    private StubFolder(Path folder) {
        this.folder = folder;
    }

    /** Takes a folder that is empty or absent, so that no file of other libraries stays there. */
    static StubFolder of(Path folder) throws IOException, InputFault {
        if (Files.exists(folder) && !Files.isDirectory(folder)) {
            throw new InputFault(folder + ": not a folder");
        }
        if (Files.isDirectory(folder)) {
            try (Stream<Path> inner = Files.list(folder)) {
                if (inner.findAny().isPresent()) {
                    throw new InputFault(folder + ": not empty: name another, or remove what is there");
                }
            }
        }
        return new StubFolder(folder);
    }

    /** Writes all files, or none where the host would not read them. Gives their number and size. */
    String write(Map<String, String> files) throws IOException, InputFault {
        long bytes = 0;
        for (Map.Entry<String, String> file : files.entrySet()) {
            int length = file.getValue().getBytes(StandardCharsets.UTF_8).length;
            check("the bytes of " + file.getKey(), length, MOST_BYTES_OF_A_FILE);
            bytes += length;
        }
        check("the files", files.size(), MOST_FILES);
        check("the bytes of all files", bytes, MOST_BYTES);
        Files.createDirectories(folder);
        for (Map.Entry<String, String> file : files.entrySet()) {
            Path path = folder.resolve(file.getKey());
            Files.createDirectories(path.getParent());
            Files.write(path, file.getValue().getBytes(StandardCharsets.UTF_8));
        }
        return files.size() + " files, " + bytes + " bytes";
    }

    private void check(String what, long number, long most) throws InputFault {
        if (number > most) {
            throw new InputFault(folder + ": " + what + " are " + number + ", and the host reads at most "
                + most + "; --for SRC writes fewer");
        }
    }
}
