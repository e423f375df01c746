package dinxobhe.frames;

import java.nio.ByteBuffer;
import java.nio.charset.CharacterCodingException;
import java.nio.charset.StandardCharsets;
import java.util.Arrays;

/** Takes the fields of a frame from its bytes, one after another. */
final class FieldReader {
    private final byte[] bytes;
    private int at;
    /** How many mirrors and values are open, each in the one before. */
    private int depth;

    /** Reads the bytes from this place on. */
    FieldReader(byte[] bytes, int at) {
        this.bytes = bytes;
        this.at = at;
    }

    boolean isAtEnd() {
        return at == bytes.length;
    }

    /** A number of so many bytes, the highest first. */
    private long number(int size) throws BadFrame {
        long number = 0;
        for (int end = take(size); at < end; at++) {
            number = number << 8 | bytes[at] & 0xff;
        }
        return number;
    }

    /** The end of the next so many bytes. */
    private int take(long size) throws BadFrame {
        if (size > bytes.length - at) {
            throw new BadFrame("the frame ends before its fields");
        }
        return at + (int) size;
    }

    int u8() throws BadFrame {
        return (int) number(1);
    }

    int u16() throws BadFrame {
        return (int) number(2);
    }

    long u32() throws BadFrame {
        return number(4);
    }

    long i64() throws BadFrame {
        return number(8);
    }

    /** A byte that is below the bound. */
    int choice(int bound) throws BadFrame {
        int choice = u8();
        if (choice >= bound) {
            throw new BadFrame("a byte of " + choice + ", which has to be below " + bound);
        }
        return choice;
    }

    boolean bool() throws BadFrame {
        return choice(2) == 1;
    }

    byte[] bytes() throws BadFrame {
        int end = take(u32());
        byte[] taken = Arrays.copyOfRange(bytes, at, end);
        at = end;
        return taken;
    }

    String text() throws BadFrame {
        try {
            return StandardCharsets.UTF_8.newDecoder().decode(ByteBuffer.wrap(bytes())).toString();
        } catch (CharacterCodingException e) {
            throw new BadFrame("a text that is not UTF-8");
        }
    }

    /** Begins a mirror or value, which is in those that are open. */
    void open() throws BadFrame {
        if (++depth > Form.MOST_NESTED) {
            throw new BadFrame("mirrors or values are nested too deep");
        }
    }

    void close() {
        depth--;
    }
}
