package dinxobhe.model;

import dinxobhe.frames.Frame;

/** Who answers questions, while a round lasts. */
public interface Host {
    /** The host's reply to a question. */
    Frame reply(Frame question);
}
