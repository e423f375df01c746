package dinxobhe.bridge;

import java.io.ByteArrayInputStream;
import java.io.InputStream;
import java.nio.file.NoSuchFileException;
import java.util.Optional;

/** A file that a processor wants to read. It need not be there. */
final class ReadFile extends HostFile {
    private final Optional<byte[]> content;

    ReadFile(String path, Optional<byte[]> content) {
        super(path, Kind.OTHER);
        this.content = content;
    }

    @Override
    public InputStream openInputStream() throws NoSuchFileException {
        return new ByteArrayInputStream(content.orElseThrow(() -> new NoSuchFileException(path())));
    }
}
