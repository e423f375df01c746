package dinxobhe.frames;

import java.io.IOException;

/** Bytes that are no frame. */
public final class BadFrame extends IOException {
    private static final long serialVersionUID = 1;

    public BadFrame(String message) {
        super(message);
    }
}
