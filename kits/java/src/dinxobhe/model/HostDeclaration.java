package dinxobhe.model;

import dinxobhe.frames.Info;
import dinxobhe.frames.Ref;
import java.util.Collections;
import java.util.EnumSet;
import java.util.Set;
import javax.lang.model.element.ElementKind;
import javax.lang.model.element.Modifier;
import javax.lang.model.element.Name;

/** An element in a unit, of which the host tells what it is. */
abstract class HostDeclaration extends HostElement {
    /** The modifiers by their bits, the lowest first. */
    private static final Modifier[] MODIFIERS = {
        Modifier.PUBLIC, Modifier.PROTECTED, Modifier.PRIVATE, Modifier.ABSTRACT, Modifier.DEFAULT,
        Modifier.STATIC, Modifier.FINAL, Modifier.TRANSIENT, Modifier.VOLATILE, Modifier.SYNCHRONIZED,
        Modifier.NATIVE, Modifier.STRICTFP,
    };

    private final Info info;
    private final Name simpleName;
    private final Set<Modifier> modifiers;

    HostDeclaration(Model model, Ref ref, Info info) {
        super(model, ref);
        this.info = info;
        // A constructor has the name that it has in class files.
        simpleName = name(info.kind() == Info.Kind.CONSTRUCTOR ? "<init>" : info.simpleName());
        modifiers = modifiers(info.modifiers());
    }

    private static Set<Modifier> modifiers(int bits) {
        Set<Modifier> modifiers = EnumSet.noneOf(Modifier.class);
        for (int i = 0; i < MODIFIERS.length; i++) {
            if ((bits >> i & 1) == 1) {
                modifiers.add(MODIFIERS[i]);
            }
        }
        return Collections.unmodifiableSet(modifiers);
    }

    Info info() {
        return info;
    }

    @Override
    public ElementKind getKind() {
        return ElementKind.valueOf(info.kind().name());
    }

    @Override
    public Set<Modifier> getModifiers() {
        return modifiers;
    }

    /** Whether it stands in a source, and is not added by the language. */
    boolean isWritten() {
        HostElement around = getEnclosingElement();
        return around instanceof HostTypeElement ? ((HostTypeElement) around).hasWritten(this)
            : !(around instanceof HostDeclaration) || ((HostDeclaration) around).isWritten();
    }

    boolean is(Modifier modifier) {
        return modifiers.contains(modifier);
    }

    @Override
    public Name getSimpleName() {
        return simpleName;
    }

    @Override
    public HostElement getEnclosingElement() {
        return model().element(ref().parent());
    }
}
