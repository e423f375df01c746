package dinxobhe.bridge;

import dinxobhe.frames.Answers;
import dinxobhe.frames.Frame;
import dinxobhe.frames.Tag;
import dinxobhe.model.Host;
import java.util.List;

/**
 * Stands for the host before the first round, when nothing can be asked: no type and no package is found.
 * What a processor prints or creates then is dropped, since the one that is run does it in the first round.
 */
final class NothingKnown implements Host {
    @Override
    public Frame reply(Frame question) {
        switch (question.tag()) {
            case TYPE_ELEMENT:
            case PACKAGE_ELEMENT:
                return new Frame(Tag.ELEMENTS, List.of());
            case MESSAGE:
                return new Frame(Tag.NOTED);
            case CREATE_SOURCE:
            case CREATE_RESOURCE:
                return new Frame(Tag.CREATED, Answers.Created.ACCEPTED);
            default:
                throw new UnsupportedOperationException(
                    "before the first round the host answers nothing: " + question.tag());
        }
    }
}
