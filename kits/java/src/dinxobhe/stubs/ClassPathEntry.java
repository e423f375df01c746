package dinxobhe.stubs;

import java.io.Closeable;
import java.io.IOException;
import java.nio.charset.CharacterCodingException;
import java.nio.file.FileSystem;
import java.nio.file.FileSystems;
import java.nio.file.Files;
import java.nio.file.Path;
import java.nio.file.ProviderNotFoundException;
import java.util.List;
import java.util.stream.Collectors;
import java.util.stream.Stream;

/** A jar, or a folder of class files. */
final class ClassPathEntry implements Closeable {
    private static final String CLASS = ".class";

    private final Path path;
    private final FileSystem archive;
    private final Path root;

    private ClassPathEntry(Path path, FileSystem archive, Path root) {
        this.path = path;
        this.archive = archive;
        this.root = root;
    }

    static ClassPathEntry open(Path path) throws InputFault {
        if (Files.isDirectory(path)) {
            return new ClassPathEntry(path, null, path);
        }
        if (!Files.exists(path)) {
            throw new InputFault(path + ": there is no such jar or folder");
        }
        try {
            FileSystem archive = FileSystems.newFileSystem(path, (ClassLoader) null);
            return new ClassPathEntry(path, archive, archive.getRootDirectories().iterator().next());
        } catch (IOException | ProviderNotFoundException e) {
            throw new InputFault(path + ": not a jar: " + e.getMessage());
        }
    }

    Path path() {
        return path;
    }

    /** The binary names of its classes, without the files of META-INF and those on packages and modules. */
    List<String> classNames() throws IOException {
        return files().stream().map(this::name)
            .filter(name -> isClass(name) && !name.endsWith("-info" + CLASS))
            .map(name -> name.substring(0, name.length() - CLASS.length()).replace('/', '.'))
            .collect(Collectors.toList());
    }

    /** The file of one of its classes. */
    Path classFile(String className) {
        return root.resolve(className.replace('.', '/') + CLASS);
    }

    /** All its files, in the order of their names. */
    List<Path> files() throws IOException {
        try (Stream<Path> walk = Files.walk(root)) {
            return walk.filter(Files::isRegularFile).sorted().collect(Collectors.toList());
        }
    }

    /** The name of one of its files, from its root. */
    String name(Path file) {
        return root.relativize(file).toString().replace(file.getFileSystem().getSeparator(), "/");
    }

    /** Whether a file of this name is a class of every release: those of META-INF are of later ones. */
    static boolean isClass(String name) {
        return name.endsWith(CLASS) && !name.startsWith("META-INF/");
    }

    /** The lines of one of its files; none where there is no such file. */
    List<String> lines(String name) throws IOException, InputFault {
        Path file = root.resolve(name);
        if (!Files.isRegularFile(file)) {
            return List.of();
        }
        try {
            return Files.readAllLines(file);
        } catch (CharacterCodingException e) {
            throw new InputFault(path + ": " + name + " is not UTF-8");
        }
    }

    @Override
    public void close() throws IOException {
        if (archive != null) {
            archive.close();
        }
    }
}
