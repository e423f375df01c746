package dinxobhe.frames;

import java.util.List;
import java.util.Optional;

/** The spelling of types. */
final class MirrorForm implements Form<Mirror> {
    private static final Form<Mirror.Kind> KIND = Form.choice(Mirror.Kind.class);
    private static final Form<Mirror.Primitive> PRIMITIVE = Form.choice(Mirror.Primitive.class);
    private static final Form<Mirror.Bound> BOUND = Form.choice(Mirror.Bound.class);
    private static final Form<List<Ref>> REFS = Form.list(Ref.FORM);

    private final Form<Optional<Mirror>> optional = Form.optional(this);
    private final Form<List<Mirror>> list = Form.list(this);

    @Override
    public Mirror read(FieldReader from) throws BadFrame {
        from.open();
        Mirror mirror = fields(KIND.read(from), from);
        from.close();
        return mirror;
    }

    private Mirror fields(Mirror.Kind kind, FieldReader from) throws BadFrame {
        switch (kind) {
            case PRIMITIVE:
                return Mirror.primitive(PRIMITIVE.read(from));
            case DECLARED:
                return Mirror.declared(Ref.FORM.read(from), optional.read(from), list.read(from));
            case ERROR:
                return Mirror.error(from.text());
            case VARIABLE:
                return Mirror.variable(Ref.FORM.read(from));
            case ARRAY:
                return Mirror.array(read(from));
            case WILDCARD:
                Mirror.Bound bound = BOUND.read(from);
                if (from.bool() != (bound != Mirror.Bound.NONE)) {
                    throw new BadFrame("the type of a wildcard that does not fit its bound");
                }
                return Mirror.wildcard(bound,
                    bound == Mirror.Bound.NONE ? Optional.empty() : Optional.of(read(from)));
            case EXECUTABLE:
                return Mirror.executable(REFS.read(from), list.read(from), read(from), list.read(from));
            case NOTHING:
                return Mirror.NOTHING;
            case VOID:
                return Mirror.VOID;
            case NULL:
                return Mirror.NULL;
            default:
                return Mirror.ofPackage(from.text());
        }
    }

    @Override
    public void write(Mirror mirror, FieldWriter to) {
        KIND.write(mirror.kind(), to);
        switch (mirror.kind()) {
            case PRIMITIVE:
                PRIMITIVE.write(mirror.primitive(), to);
                break;
            case DECLARED:
                Ref.FORM.write(mirror.element(), to);
                optional.write(mirror.inner(), to);
                list.write(mirror.arguments(), to);
                break;
            case VARIABLE:
                Ref.FORM.write(mirror.element(), to);
                break;
            case ARRAY:
                write(mirror.inner().orElseThrow(), to);
                break;
            case WILDCARD:
                BOUND.write(mirror.bound(), to);
                optional.write(mirror.inner(), to);
                break;
            case EXECUTABLE:
                REFS.write(mirror.variables(), to);
                list.write(mirror.arguments(), to);
                write(mirror.inner().orElseThrow(), to);
                list.write(mirror.thrown(), to);
                break;
            case ERROR:
            case PACKAGE:
                to.text(mirror.text());
                break;
            default:
                break;
        }
    }
}
