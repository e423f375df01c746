package dinxobhe.stubs;

import java.io.DataInputStream;
import java.io.EOFException;
import java.io.IOException;
import java.nio.file.Files;
import java.nio.file.Path;
import java.util.LinkedHashMap;
import java.util.List;
import java.util.Map;
import java.util.Set;

/** The class files of the jars and folders that are the libraries. */
final class Libraries {
    private static final int MAGIC = 0xCAFEBABE;

    /** Where the class of each binary name is. The first one counts, as for the compiler. */
    private final Map<String, Path> classes = new LinkedHashMap<>();

    private Libraries() {}

    static Libraries of(List<Path> paths) throws IOException, InputFault {
        Libraries libraries = new Libraries();
        for (Path path : paths) {
            try (ClassPathEntry entry = ClassPathEntry.open(path)) {
                for (String name : entry.classNames()) {
                    libraries.classes.putIfAbsent(name, path);
                }
            }
        }
        return libraries;
    }

    /** The binary names of the classes, in the order of the libraries. */
    Set<String> classNames() {
        return classes.keySet();
    }

    /** Fails if there is a class of this name. It is called where the compiler has no type of the name. */
    void checkAbsent(String name) throws IOException, InputFault {
        Path path = classes.get(name);
        if (path != null) {
            throw new InputFault(path + ": the class " + name + " cannot be read: " + reason(path, name));
        }
    }

    private static String reason(Path path, String name) throws IOException, InputFault {
        try (ClassPathEntry entry = ClassPathEntry.open(path);
                DataInputStream in = new DataInputStream(Files.newInputStream(entry.classFile(name)))) {
            if (in.readInt() != MAGIC) {
                return "it is no class file";
            }
            in.readUnsignedShort();
            int version = in.readUnsignedShort();
            if (version > (int) Double.parseDouble(System.getProperty("java.class.version"))) {
                return "it has version " + version + ", which is that of a later Java";
            }
            return "it is damaged, or of another name";
        } catch (EOFException e) {
            return "it is no class file";
        }
    }
}
