package dinxobhe.stubs;

/** Something that the user has to change. The message names the file, the jar or the option. */
final class InputFault extends Exception {
    private static final long serialVersionUID = 1;

    InputFault(String message) {
        super(message);
    }
}
