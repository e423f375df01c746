package dinxobhe.stubs;

/** The words of the command line are not those of the command. */
final class WrongWords extends Exception {
    private static final long serialVersionUID = 1;

    WrongWords(String message) {
        super(message);
    }
}
