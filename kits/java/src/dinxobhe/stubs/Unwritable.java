package dinxobhe.stubs;

/** A declaration has a part that no Java text means. It is left out, or written without this part. */
final class Unwritable extends RuntimeException {
    private static final long serialVersionUID = 1;

    Unwritable(String message) {
        super(message);
    }
}
