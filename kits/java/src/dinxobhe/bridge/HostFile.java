package dinxobhe.bridge;

import java.io.IOException;
import java.io.InputStream;
import java.io.InputStreamReader;
import java.io.OutputStream;
import java.io.Reader;
import java.io.Writer;
import java.net.URI;
import java.net.URISyntaxException;
import java.nio.charset.StandardCharsets;
import javax.lang.model.element.Modifier;
import javax.lang.model.element.NestingKind;
import javax.tools.JavaFileObject;

/** A file of the host, which is at no place where others could find it. Texts are UTF-8. */
abstract class HostFile implements JavaFileObject {
    private static final String NOT_FOR_WRITING = "FileObject was not opened for writing.";

    private final String path;
    private final Kind kind;

    HostFile(String path, Kind kind) {
        this.path = path;
        this.kind = kind;
    }

    String path() {
        return path;
    }

    @Override
    public Kind getKind() {
        return kind;
    }

    @Override
    public URI toUri() {
        try {
            return new URI("host", null, "/" + path, null);
        } catch (URISyntaxException e) {
            throw new IllegalStateException(e);
        }
    }

    @Override
    public String getName() {
        return path;
    }

    @Override
    public abstract InputStream openInputStream() throws IOException;

    @Override
    public OutputStream openOutputStream() throws IOException {
        throw new IllegalStateException(NOT_FOR_WRITING);
    }

    @Override
    public Writer openWriter() throws IOException {
        throw new IllegalStateException(NOT_FOR_WRITING);
    }

    @Override
    public Reader openReader(boolean ignoresEncodingErrors) throws IOException {
        return new InputStreamReader(openInputStream(), StandardCharsets.UTF_8);
    }

    @Override
    public CharSequence getCharContent(boolean ignoresEncodingErrors) throws IOException {
        try (InputStream content = openInputStream()) {
            return new String(content.readAllBytes(), StandardCharsets.UTF_8);
        }
    }

    @Override
    public long getLastModified() {
        return 0;
    }

    @Override
    public boolean delete() {
        return false;
    }

    @Override
    public boolean isNameCompatible(String simpleName, Kind ofKind) {
        return kind == ofKind && path.endsWith("/" + simpleName + kind.extension);
    }

    @Override
    public NestingKind getNestingKind() {
        return null;
    }

    @Override
    public Modifier getAccessLevel() {
        return null;
    }

    @Override
    public String toString() {
        return path;
    }
}
