package dinxobhe.stubs;

import java.io.IOException;
import java.util.HashMap;
import java.util.List;
import java.util.Map;
import java.util.Set;
import javax.annotation.processing.AbstractProcessor;
import javax.annotation.processing.RoundEnvironment;
import javax.lang.model.SourceVersion;
import javax.lang.model.element.Element;
import javax.lang.model.element.Modifier;
import javax.lang.model.element.ModuleElement;
import javax.lang.model.element.ModuleElement.ExportsDirective;
import javax.lang.model.element.PackageElement;
import javax.lang.model.element.TypeElement;
import javax.lang.model.util.ElementFilter;
import javax.lang.model.util.Elements;

/** Runs in the Java compiler, which reads the class files, and makes the files of the stubs. */
final class StubProcessor extends AbstractProcessor {
    /** Types that the host finds without their names being written, as supertypes, boxes and the like. */
    private static final List<String> IMPLIED = List.of(
        "java.lang.Object", "java.lang.Enum", "java.lang.String", "java.lang.Cloneable",
        "java.io.Serializable", "java.lang.annotation.Annotation", "java.lang.annotation.Inherited",
        "java.lang.Boolean", "java.lang.Byte", "java.lang.Short", "java.lang.Integer", "java.lang.Long",
        "java.lang.Character", "java.lang.Float", "java.lang.Double", "java.lang.Void");

    private final Options options;
    private final Libraries libraries;
    private final SourceNames sources;
    private final Set<String> asked;
    private final Notes notes;
    private final Map<String, Boolean> packages = new HashMap<>();
    private Elements elements;
    private Reach reach;
    private Map<String, String> files;
    private InputFault fault;
    private IOException failure;

    StubProcessor(Options options, Libraries libraries, SourceNames sources, Set<String> asked, Notes notes) {
        this.options = options;
        this.libraries = libraries;
        this.sources = sources;
        this.asked = asked;
        this.notes = notes;
    }

    /** The text of each file, by its name; null where the compiler did not run this. */
    Map<String, String> files() throws IOException, InputFault {
        if (fault != null) {
            throw fault;
        }
        if (failure != null) {
            throw failure;
        }
        return files;
    }

    @Override
    public Set<String> getSupportedAnnotationTypes() {
        return Set.of("*");
    }

    @Override
    public SourceVersion getSupportedSourceVersion() {
        return SourceVersion.latest();
    }

    @Override
    public boolean process(Set<? extends TypeElement> annotations, RoundEnvironment round) {
        if (elements == null) {
            elements = processingEnv.getElementUtils();
            reach = new Reach(processingEnv, sources.packages(), this::isWanted, notes);
            try {
                addFirst();
                files = reach.files();
                for (String name : notes.names(Notes.Kind.ABSENT)) {
                    checkAbsent(name);
                }
            } catch (InputFault e) {
                fault = e;
            } catch (IOException e) {
                failure = e;
            }
        }
        return false;
    }

    /** Adds the types that are written whatever names them. */
    private void addFirst() throws IOException, InputFault {
        for (String module : options.modules()) {
            addModule(module);
        }
        if (options.sources().isEmpty()) {
            addLibraries();
        }
        for (String name : sources.named()) {
            addNamed(name);
        }
        for (String name : asked) {
            addNamed(name);
        }
        for (String name : options.also()) {
            TypeElement type = elements.getTypeElement(name);
            if (type == null) {
                throw new InputFault("--also " + name + ": no library has this type");
            }
            reach.add(type);
        }
        for (String name : IMPLIED) {
            addNamed(name);
        }
    }

    private void addModule(String name) throws InputFault {
        ModuleElement module = elements.getModuleElement(name);
        if (module == null) {
            throw new InputFault("--module " + name + ": there is no such module");
        }
        for (ExportsDirective exported : ElementFilter.exportsIn(module.getDirectives())) {
            if (exported.getTargetModules() == null) {
                ElementFilter.typesIn(exported.getPackage().getEnclosedElements()).forEach(this::addPublic);
            }
        }
    }

    private void addLibraries() throws IOException, InputFault {
        for (String name : libraries.classNames()) {
            TypeElement type = elements.getTypeElement(name);
            if (type != null) {
                addPublic(type);
            } else if (!JavaNames.isDotted(name)) {
                notes.add(Notes.Kind.LEFT_OUT, name);
            } else if (name.indexOf('$') < 0) { // else it is a nested class
                checkAbsent(name);
            }
        }
    }

    /** Fails if a library has a class of this name, which the compiler has not. */
    private void checkAbsent(String name) throws IOException, InputFault {
        if (libraries.classNames().contains(name) && isOfModule(name)) {
            notes.add(Notes.Kind.HIDDEN, name);
        } else {
            libraries.checkAbsent(name);
        }
    }

    /** Whether the package of a class is that of a module, whose classes are then the only ones. */
    private boolean isOfModule(String className) {
        int dot = className.lastIndexOf('.');
        PackageElement of = dot < 0 ? null : elements.getPackageElement(className.substring(0, dot));
        return of != null && isOfModule(of);
    }

    private boolean isOfModule(Element element) {
        ModuleElement module = elements.getModuleOf(element);
        return module != null && !module.isUnnamed();
    }

    private void addPublic(TypeElement type) {
        if (type.getModifiers().contains(Modifier.PUBLIC)) {
            reach.add(type);
        }
    }

    /** Adds the type of a name, where there is one that the sources may see. */
    private void addNamed(String name) throws IOException, InputFault {
        if (isInPackage(name)) {
            TypeElement type = elements.getTypeElement(name);
            if (type == null) {
                checkAbsent(name);
            } else if (isSeen(type)) {
                reach.add(type);
            }
        }
    }

    /** Whether a name begins with that of a package: a fast test, which few of the texts pass. */
    private boolean isInPackage(String name) {
        int dot = name.lastIndexOf('.');
        if (dot < 0) {
            return true;
        }
        String front = name.substring(0, dot);
        Boolean is = packages.get(front);
        if (is == null) {
            is = elements.getPackageElement(front) != null || front.indexOf('.') >= 0 && isInPackage(front);
            packages.put(front, is);
        }
        return is;
    }

    private boolean isSeen(TypeElement type) {
        String of = elements.getPackageOf(type).getQualifiedName().toString();
        boolean isOpen = sources.packages().contains(of);
        for (Element e = type; Kinds.isType(e); e = e.getEnclosingElement()) {
            Set<Modifier> modifiers = e.getModifiers();
            boolean isPublic = modifiers.contains(Modifier.PUBLIC) || modifiers.contains(Modifier.PROTECTED);
            if (!isPublic && (!isOpen || modifiers.contains(Modifier.PRIVATE))) {
                return false;
            }
        }
        return true;
    }

    /** Whether a top-level type has a file: no type of the sources has, and those of the JDK only with --jdk. */
    private boolean isWanted(TypeElement type) {
        boolean isDeclared = sources.declared().contains(type.getQualifiedName().toString());
        return !isDeclared && (options.jdk() || !isOfModule(type));
    }
}
