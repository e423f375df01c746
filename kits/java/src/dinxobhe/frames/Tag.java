package dinxobhe.frames;

import java.util.HashMap;
import java.util.List;
import java.util.Map;

/** The frames, each with the byte that says which it is and the forms of its fields. */
public enum Tag {
    INIT(1, Form.TEXT, Form.U16, Form.list(Option.FORM)),
    ROUND(2, Form.U32, Form.BOOL, Form.BOOL, Form.TEXTS, Form.TEXTS),

    ELEMENTS(16, Form.list(Ref.FORM)),
    INFO(17, Form.choice(Info.Kind.class), Form.U16, Form.TEXT, Form.TEXT, Form.BOOL),
    TEXTS(18, Form.TEXTS),
    ANNOTATIONS(19, Form.list(WrittenAnnotation.FORM)),
    VALUES(20, NamedValue.LIST),
    MIRRORS(21, Form.list(Mirror.FORM)),
    TRUTH(22, Form.BOOL),
    CREATED(23, Form.choice(Answers.Created.class)),
    NOTED(24),
    REFUSED(25, Form.choice(Answers.Refusal.class)),

    HELLO(64, Form.TEXTS, Form.TEXTS, Form.choice(Answers.Claim.class)),
    DONE(65, Form.BOOL),
    CREATE_SOURCE(66, Form.TEXT, Form.BYTES, Form.list(Ref.FORM)),
    CREATE_RESOURCE(67, Form.choice(Answers.Location.class), Form.TEXT, Form.TEXT, Form.BYTES,
        Form.list(Ref.FORM)),
    CREATE_CLASS(68, Form.TEXT, Form.BYTES, Form.list(Ref.FORM)),
    MESSAGE(69, Form.choice(Answers.MessageKind.class), Form.optional(Ref.FORM), Form.TEXT),

    TYPE_ELEMENT(80, Form.TEXT),
    PACKAGE_ELEMENT(81, Form.TEXT),
    INFO_OF(82, Ref.FORM),
    ENCLOSING(83, Ref.FORM),
    ENCLOSED(84, Ref.FORM),
    TYPE_PARAMETERS(85, Ref.FORM),
    PARAMETERS(86, Ref.FORM),
    PACKAGE_OF(87, Ref.FORM),
    DOC_COMMENT(88, Ref.FORM),
    ANNOTATIONS_OF(89, Ref.FORM),
    ALL_ANNOTATIONS(90, Ref.FORM),
    VALUES_WITH_DEFAULTS(91, Ref.FORM, Form.U16),
    DEFAULT_VALUE(92, Ref.FORM),
    CONSTANT_VALUE(93, Ref.FORM),
    ALL_MEMBERS(94, Ref.FORM),
    OVERRIDES(95, Ref.FORM, Ref.FORM, Ref.FORM),
    TYPE_OF(96, Ref.FORM),
    SUPERCLASS(97, Ref.FORM),
    INTERFACES(98, Ref.FORM),
    BOUNDS(99, Ref.FORM),
    SAME_TYPE(100, Mirror.FORM, Mirror.FORM),
    SUBTYPE(101, Mirror.FORM, Mirror.FORM),
    ASSIGNABLE(102, Mirror.FORM, Mirror.FORM),
    CONTAINS(103, Mirror.FORM, Mirror.FORM),
    SUBSIGNATURE(104, Mirror.FORM, Mirror.FORM),
    DIRECT_SUPERTYPES(105, Mirror.FORM),
    ERASURE(106, Mirror.FORM),
    BOXED(107, Mirror.FORM),
    UNBOXED(108, Mirror.FORM),
    MEMBER_TYPE(109, Mirror.FORM, Ref.FORM),
    AS_ELEMENT(110, Mirror.FORM),
    PRINT_TYPE(111, Mirror.FORM),
    DECLARED_TYPE(112, Ref.FORM, Form.list(Mirror.FORM)),
    ARRAY_TYPE(113, Mirror.FORM),
    ANNOTATED_WITH(114, Form.TEXT),
    ROOTS(115);

    private static final Map<Integer, Tag> BY_NUMBER = new HashMap<>();

    static {
        for (Tag tag : values()) {
            BY_NUMBER.put(tag.number, tag);
        }
    }

    private final int number;
    private final List<Form<?>> fields;

    Tag(int number, Form<?>... fields) {
        this.number = number;
        this.fields = List.of(fields);
    }

    /** The byte of the tag. */
    public int number() {
        return number;
    }

    List<Form<?>> fields() {
        return fields;
    }

    static Tag of(int number) throws BadFrame {
        Tag tag = BY_NUMBER.get(number);
        if (tag == null) {
            throw new BadFrame("no frame has the tag " + number);
        }
        return tag;
    }
}
