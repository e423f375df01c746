package dinxobhe.bridge;

import dinxobhe.frames.Answers;
import dinxobhe.frames.Frame;
import dinxobhe.frames.Ref;
import dinxobhe.frames.Tag;
import dinxobhe.model.Host;
import dinxobhe.model.Model;
import java.util.Optional;
import javax.annotation.processing.Messager;
import javax.lang.model.element.AnnotationMirror;
import javax.lang.model.element.AnnotationValue;
import javax.lang.model.element.Element;
import javax.tools.Diagnostic;

/** Prints messages by the host. A message at an annotation is one at the element that has it. */
final class HostMessager implements Messager {
    private final Host host;

    HostMessager(Host host) {
        this.host = host;
    }

    @Override
    public void printMessage(Diagnostic.Kind kind, CharSequence text) {
        print(kind, Optional.empty(), text);
    }

    @Override
    public void printMessage(Diagnostic.Kind kind, CharSequence text, Element element) {
        print(kind, Optional.ofNullable(element).flatMap(Model::refOf), text);
    }

    @Override
    public void printMessage(Diagnostic.Kind kind, CharSequence text, Element element,
            AnnotationMirror annotation) {
        printMessage(kind, text, element);
    }

    @Override
    public void printMessage(Diagnostic.Kind kind, CharSequence text, Element element,
            AnnotationMirror annotation, AnnotationValue value) {
        printMessage(kind, text, element);
    }

    private void print(Diagnostic.Kind kind, Optional<Ref> element, CharSequence text) {
        Answers.MessageKind sent = Answers.MessageKind.valueOf(kind.name());
        Frame reply = host.reply(new Frame(Tag.MESSAGE, sent, element, text.toString()));
        if (reply.tag() != Tag.NOTED && reply.tag() != Tag.REFUSED) {
            throw new IllegalStateException("the host answers a message by " + reply.tag());
        }
    }
}
