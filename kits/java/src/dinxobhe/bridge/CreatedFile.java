package dinxobhe.bridge;

import dinxobhe.frames.Answers;
import dinxobhe.frames.Frame;
import dinxobhe.frames.Tag;
import dinxobhe.model.Host;
import java.io.ByteArrayOutputStream;
import java.io.IOException;
import java.io.InputStream;
import java.io.OutputStream;
import java.io.OutputStreamWriter;
import java.io.Writer;
import java.nio.charset.StandardCharsets;
import java.util.Optional;
import javax.annotation.processing.FilerException;

/** A file that a processor writes. The host creates it when it is closed. */
final class CreatedFile extends HostFile {
    private final Host host;
    private final Creation creation;
    private Stream stream;

    CreatedFile(Host host, Creation creation, Kind kind) {
        super(creation.path(), kind);
        this.host = host;
        this.creation = creation;
    }

    String typeName() {
        return creation.typeName();
    }

    boolean isOpen() {
        return stream != null && !stream.isClosed;
    }

    /** What was written, once it is closed. */
    Optional<byte[]> content() {
        return stream != null && stream.isClosed ? Optional.of(stream.toByteArray()) : Optional.empty();
    }

    @Override
    public InputStream openInputStream() {
        throw new IllegalStateException("FileObject was not opened for reading.");
    }

    @Override
    public OutputStream openOutputStream() throws IOException {
        if (stream != null) {
            throw new IOException("Output stream or writer has already been opened.");
        }
        stream = new Stream();
        return stream;
    }

    @Override
    public Writer openWriter() throws IOException {
        return new OutputStreamWriter(openOutputStream(), StandardCharsets.UTF_8);
    }

    private final class Stream extends ByteArrayOutputStream {
        private boolean isClosed;

        @Override
        public void close() throws IOException {
            if (!isClosed) {
                isClosed = true;
                create(toByteArray());
            }
        }
    }

    private void create(byte[] content) throws IOException {
        Frame reply = host.reply(creation.frame(content));
        if (reply.tag() == Tag.REFUSED) {
            throw new IOException(path() + ": an originating element is not there");
        }
        if (reply.tag() != Tag.CREATED) {
            throw new IllegalStateException("the host answers a file by " + reply.tag());
        }
        switch (reply.field(0, Answers.Created.class)) {
            case ACCEPTED:
                return;
            case EXISTS:
                throw new FilerException(typeName().isEmpty() ? "Attempt to reopen a file for path " + path()
                    : "Attempt to recreate a file for type " + typeName());
            case BAD_NAME:
                throw new FilerException("Illegal name " + path());
            case UNSUPPORTED:
                throw new FilerException("The host creates no class files: " + typeName());
            default:
                throw new IOException(path() + ": too large");
        }
    }
}
