package dinxobhe.frames;

import java.io.DataInputStream;
import java.io.EOFException;
import java.io.IOException;
import java.io.InputStream;
import java.io.OutputStream;
import java.nio.ByteBuffer;
import java.util.ArrayList;
import java.util.List;
import java.util.Optional;

/** A frame: its tag, and its fields in order. */
public final class Frame {
    /** The greatest length that a frame may say. */
    public static final int LONGEST = (1 << 27) - 4;

    private static final int LENGTH_BYTES = 4;

    private final Tag tag;
    private final List<Object> fields;

    public Frame(Tag tag, Object... fields) {
        this(tag, List.of(fields));
    }

    private Frame(Tag tag, List<Object> fields) {
        if (fields.size() != tag.fields().size()) {
            throw new IllegalArgumentException(tag + " with " + fields.size() + " fields");
        }
        this.tag = tag;
        this.fields = fields;
    }

    public Tag tag() {
        return tag;
    }

    // Fields by their places, from 0.

    public <T> T field(int at, Class<T> type) {
        return type.cast(fields.get(at));
    }

    public String text(int at) {
        return field(at, String.class);
    }

    public boolean truth(int at) {
        return field(at, Boolean.class);
    }

    public Ref ref(int at) {
        return field(at, Ref.class);
    }

    public Mirror mirror(int at) {
        return field(at, Mirror.class);
    }

    public byte[] bytes(int at) {
        return field(at, byte[].class);
    }

    /** The list whose items are of this type. */
    @SuppressWarnings("unchecked")
    public <T> List<T> list(int at, Class<T> items) {
        List<?> list = field(at, List.class);
        list.forEach(items::cast);
        return (List<T>) list;
    }

    @SuppressWarnings("unchecked")
    public <T> Optional<T> optional(int at, Class<T> item) {
        return field(at, Optional.class).map(item::cast);
    }

    // Bytes.

    /** The bytes of the frame, its length first. */
    public byte[] bytes() {
        FieldWriter writer = new FieldWriter();
        writer.u32(0);
        writer.u8(tag.number());
        for (int i = 0; i < fields.size(); i++) {
            write(tag.fields().get(i), fields.get(i), writer);
        }
        byte[] bytes = writer.written();
        ByteBuffer.wrap(bytes).putInt(bytes.length - LENGTH_BYTES);
        return bytes;
    }

    @SuppressWarnings("unchecked")
    private static <T> void write(Form<T> form, Object field, FieldWriter to) {
        form.write((T) field, to);
    }

    /** Whether the frame is longer than one may be. */
    public static boolean isTooLong(byte[] bytes) {
        return bytes.length - LENGTH_BYTES > LONGEST;
    }

    public void writeTo(OutputStream to) throws IOException {
        to.write(bytes());
        to.flush();
    }

    /** The next frame of a stream; none at its end. */
    public static Optional<Frame> read(InputStream from) throws IOException {
        int first = from.read();
        if (first < 0) {
            return Optional.empty();
        }
        DataInputStream data = new DataInputStream(from);
        int length = first << 24 | data.readUnsignedByte() << 16 | data.readUnsignedShort();
        if (length < 1 || length > LONGEST) {
            throw new BadFrame("a frame of the length " + Integer.toUnsignedString(length));
        }
        byte[] bytes = data.readNBytes(length);
        if (bytes.length < length) {
            throw new EOFException("the stream ends in a frame");
        }
        return Optional.of(of(bytes));
    }

    /** The frame of these bytes, which are those behind its length. */
    private static Frame of(byte[] bytes) throws BadFrame {
        Tag tag = Tag.of(bytes[0] & 0xff);
        FieldReader reader = new FieldReader(bytes, 1);
        List<Object> fields = new ArrayList<>();
        for (Form<?> form : tag.fields()) {
            fields.add(form.read(reader));
        }
        if (!reader.isAtEnd()) {
            throw new BadFrame("bytes behind the fields of " + tag);
        }
        return new Frame(tag, List.copyOf(fields));
    }
}
