package dinxobhe.frames;

import java.io.ByteArrayOutputStream;
import java.nio.charset.StandardCharsets;

/** Puts the fields of a frame one behind the other. */
final class FieldWriter {
    private final ByteArrayOutputStream bytes = new ByteArrayOutputStream();

    byte[] written() {
        return bytes.toByteArray();
    }

    private void number(long number, int size) {
        for (int shift = 8 * (size - 1); shift >= 0; shift -= 8) {
            bytes.write((int) (number >> shift));
        }
    }

    void u8(int number) {
        number(number, 1);
    }

    void u16(int number) {
        number(number, 2);
    }

    void u32(long number) {
        number(number, 4);
    }

    void i64(long number) {
        number(number, 8);
    }

    void bool(boolean truth) {
        u8(truth ? 1 : 0);
    }

    void bytes(byte[] content) {
        u32(content.length);
        bytes.write(content, 0, content.length);
    }

    void text(String text) {
        bytes(text.getBytes(StandardCharsets.UTF_8));
    }
}
