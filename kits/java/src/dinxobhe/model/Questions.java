package dinxobhe.model;

import dinxobhe.frames.Answers;
import dinxobhe.frames.Frame;
import dinxobhe.frames.Info;
import dinxobhe.frames.Mirror;
import dinxobhe.frames.NamedValue;
import dinxobhe.frames.Ref;
import dinxobhe.frames.Tag;
import dinxobhe.frames.Value;
import dinxobhe.frames.WrittenAnnotation;
import java.util.List;
import java.util.Optional;

/** The questions that are asked, by name. */
final class Questions {
    private final Host host;

    Questions(Host host) {
        this.host = host;
    }

    private Frame ask(Tag reply, Tag question, Object... fields) {
        Frame frame = host.reply(new Frame(question, fields));
        if (frame.tag() == Tag.REFUSED) {
            throw new RefusedQuestion(question, frame.field(0, Answers.Refusal.class));
        }
        if (frame.tag() != reply) {
            throw new IllegalStateException("the host answers " + question + " by " + frame.tag());
        }
        return frame;
    }

    private List<Ref> elements(Tag question, Object field) {
        return ask(Tag.ELEMENTS, question, field).list(0, Ref.class);
    }

    private List<Mirror> mirrors(Tag question, Object field) {
        return ask(Tag.MIRRORS, question, field).list(0, Mirror.class);
    }

    Optional<Ref> typeElement(String name) {
        return elements(Tag.TYPE_ELEMENT, name).stream().findFirst();
    }

    Optional<Ref> packageElement(String name) {
        return elements(Tag.PACKAGE_ELEMENT, name).stream().findFirst();
    }

    Info info(Ref of) {
        return new Info(ask(Tag.INFO, Tag.INFO_OF, of));
    }

    List<Ref> enclosed(Ref by) {
        return elements(Tag.ENCLOSED, by);
    }

    List<Ref> typeParameters(Ref of) {
        return elements(Tag.TYPE_PARAMETERS, of);
    }

    List<Ref> parameters(Ref of) {
        return elements(Tag.PARAMETERS, of);
    }

    Optional<String> docComment(Ref of) {
        return ask(Tag.TEXTS, Tag.DOC_COMMENT, of).list(0, String.class).stream().findFirst();
    }

    /** The annotations that are written on an element. */
    List<WrittenAnnotation> annotations(Ref of) {
        return ask(Tag.ANNOTATIONS, Tag.ANNOTATIONS_OF, of).list(0, WrittenAnnotation.class);
    }

    Optional<Value> defaultValue(Ref of) {
        return value(Tag.DEFAULT_VALUE, of);
    }

    Optional<Value> constantValue(Ref of) {
        return value(Tag.CONSTANT_VALUE, of);
    }

    private Optional<Value> value(Tag question, Ref of) {
        return ask(Tag.VALUES, question, of).list(0, NamedValue.class).stream().map(NamedValue::value)
            .findFirst();
    }

    Mirror typeOf(Ref element) {
        return mirrors(Tag.TYPE_OF, element).get(0);
    }

    Mirror superclass(Ref of) {
        return mirrors(Tag.SUPERCLASS, of).get(0);
    }

    List<Mirror> interfaces(Ref of) {
        return mirrors(Tag.INTERFACES, of);
    }

    List<Mirror> bounds(Ref of) {
        return mirrors(Tag.BOUNDS, of);
    }

    boolean isSubtype(Mirror one, Mirror other) {
        return ask(Tag.TRUTH, Tag.SUBTYPE, one, other).truth(0);
    }

    boolean isAssignable(Mirror one, Mirror other) {
        return ask(Tag.TRUTH, Tag.ASSIGNABLE, one, other).truth(0);
    }

    boolean contains(Mirror one, Mirror other) {
        return ask(Tag.TRUTH, Tag.CONTAINS, one, other).truth(0);
    }

    Mirror boxed(Mirror type) {
        return mirrors(Tag.BOXED, type).get(0);
    }

    Mirror unboxed(Mirror type) {
        return mirrors(Tag.UNBOXED, type).get(0);
    }

    /** The elements of the round's roots on which an annotation is present. */
    List<Ref> annotatedWith(String name) {
        return elements(Tag.ANNOTATED_WITH, name);
    }

    List<Ref> roots() {
        return ask(Tag.ELEMENTS, Tag.ROOTS).list(0, Ref.class);
    }
}
