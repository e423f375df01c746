package dinxobhe.frames;

/** The enums of fields, each in the order of its numbers. */
public final class Answers {
    private Answers() {}

    /** What became of a file. */
    public enum Created {
        ACCEPTED, EXISTS, UNSUPPORTED, BAD_NAME, TOO_LARGE
    }

    /** Why a question has no answer. */
    public enum Refusal {
        NO_SUCH, WRONG_KIND, TOO_DEEP, TOO_LARGE
    }

    /** Whether a processor claims what it is offered. */
    public enum Claim {
        ALWAYS, NEVER, VARIES
    }

    /** Where a resource is. */
    public enum Location {
        CLASS_OUTPUT, SOURCE_OUTPUT, NATIVE_HEADER_OUTPUT
    }

    /** The kinds of messages. */
    public enum MessageKind {
        ERROR, WARNING, MANDATORY_WARNING, NOTE, OTHER
    }
}
