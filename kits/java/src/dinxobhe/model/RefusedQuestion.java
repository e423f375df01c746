package dinxobhe.model;

import dinxobhe.frames.Answers;
import dinxobhe.frames.Tag;

/** The host refuses to answer a question. */
public final class RefusedQuestion extends IllegalArgumentException {
    private static final long serialVersionUID = 1;

    RefusedQuestion(Tag question, Answers.Refusal reason) {
        super("the host refuses " + question + ": " + reason);
    }
}
