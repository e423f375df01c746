package dinxobhe.bridge;

import dinxobhe.frames.Answers;
import dinxobhe.frames.Ref;
import dinxobhe.model.Host;
import dinxobhe.model.Model;
import java.io.FileNotFoundException;
import java.io.IOException;
import java.util.Arrays;
import java.util.HashMap;
import java.util.List;
import java.util.Map;
import java.util.Optional;
import java.util.stream.Collectors;
import javax.annotation.processing.Filer;
import javax.annotation.processing.FilerException;
import javax.lang.model.SourceVersion;
import javax.lang.model.element.Element;
import javax.tools.FileObject;
import javax.tools.JavaFileManager;
import javax.tools.JavaFileObject;
import javax.tools.StandardLocation;

/** Creates files by the host. One is created when its stream is closed. */
final class HostFiler implements Filer {
    private static final String PACKAGE_INFO = "package-info";

    private final Host host;
    /** The files that were opened here, by their paths. */
    private final Map<String, CreatedFile> opened = new HashMap<>();

    HostFiler(Host host) {
        this.host = host;
    }

    @Override
    public JavaFileObject createSourceFile(CharSequence name, Element... origins) throws IOException {
        String type = withoutModule(name);
        return typeFile(type, Creation.source(type, refs(origins)), JavaFileObject.Kind.SOURCE);
    }

    @Override
    public JavaFileObject createClassFile(CharSequence name, Element... origins) throws IOException {
        String type = withoutModule(name);
        return typeFile(type, Creation.ofClass(type, refs(origins)), JavaFileObject.Kind.CLASS);
    }

    private JavaFileObject typeFile(String type, Creation creation, JavaFileObject.Kind kind)
            throws FilerException {
        if (!isTypeName(type)) {
            throw new FilerException("Illegal name " + type);
        }
        return opened(new CreatedFile(host, creation, kind), "Attempt to recreate a file for type " + type);
    }

    @Override
    public FileObject createResource(JavaFileManager.Location location, CharSequence packageName,
            CharSequence relative, Element... origins) throws IOException {
        if (!location.isOutputLocation()) {
            throw new IllegalArgumentException("Resource creation not supported in location " + location);
        }
        String in = withoutModule(packageName);
        if (!in.isEmpty() && !SourceVersion.isName(in)) {
            throw new FilerException("Illegal name " + in);
        }
        checkRelative(relative.toString());
        Answers.Location place = Answers.Location.valueOf(location.getName());
        Creation creation = Creation.resource(place, in, relative.toString(), refs(origins));
        return opened(new CreatedFile(host, creation, JavaFileObject.Kind.OTHER),
            "Attempt to reopen a file for path " + creation.path());
    }

    /** A file that was created here. One that wasn't is found, and can't be read. */
    @Override
    public FileObject getResource(JavaFileManager.Location location, CharSequence packageName,
            CharSequence relative) throws IOException {
        if (!location.isOutputLocation()) {
            throw new FileNotFoundException(relative.toString());
        }
        checkRelative(relative.toString());
        String path = Creation.path(location.getName(), withoutModule(packageName), relative.toString());
        return new ReadFile(path, Optional.ofNullable(opened.get(path)).flatMap(CreatedFile::content));
    }

    private CreatedFile opened(CreatedFile file, String refusal) throws FilerException {
        if (opened.putIfAbsent(file.path(), file) != null) {
            throw new FilerException(refusal);
        }
        return file;
    }

    /** The names of the types whose files were opened and not closed. */
    List<String> unclosed() {
        return opened.values().stream().filter(CreatedFile::isOpen).map(CreatedFile::typeName)
            .filter(name -> !name.isEmpty()).sorted().collect(Collectors.toList());
    }

    // Names.

    private static List<Ref> refs(Element... origins) {
        return Arrays.stream(origins).map(Model::refOf).flatMap(Optional::stream).distinct()
            .collect(Collectors.toList());
    }

    /** A name may stand behind that of a module, which the host has none of. */
    private static String withoutModule(CharSequence name) {
        String text = name.toString();
        return text.substring(text.indexOf('/') + 1);
    }

    private static boolean isTypeName(String name) {
        boolean isPackageFile = name.endsWith("." + PACKAGE_INFO);
        return SourceVersion.isName(isPackageFile ? name.substring(0, name.lastIndexOf('.')) : name);
    }

    private static void checkRelative(String name) {
        boolean isLegal = !name.isEmpty() && !name.contains("\\")
            && Arrays.stream(name.split("/", -1)).noneMatch(one -> one.isEmpty() || one.matches("\\.\\.?"));
        if (!isLegal) {
            throw new IllegalArgumentException("Invalid relative name: " + name);
        }
    }
}
