import dinxobhe.frames.Frame;
import java.io.ByteArrayInputStream;
import java.io.DataInputStream;
import java.io.IOException;
import java.io.InputStream;
import java.util.Optional;

/**
 * Reads pieces of bytes, each behind its length, and says of each whether it is frames: the frames, as they
 * are written again from their fields, or why it is none.
 */
final class FrameEcho {
    private FrameEcho() {}

    public static void main(String[] words) throws IOException {
        DataInputStream pieces = new DataInputStream(System.in);
        while (pieces.available() > 0) {
            byte[] piece = new byte[pieces.readInt()];
            pieces.readFully(piece);
            System.out.println(said(new ByteArrayInputStream(piece)));
        }
    }

    private static String said(InputStream piece) {
        StringBuilder written = new StringBuilder();
        try {
            for (Optional<Frame> frame = Frame.read(piece); frame.isPresent(); frame = Frame.read(piece)) {
                for (byte one : frame.get().bytes()) {
                    written.append(String.format("%02x", one));
                }
            }
            return written.toString();
        } catch (IOException e) {
            return "none: " + e.getMessage();
        }
    }
}
