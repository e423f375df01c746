package dinxobhe.stubs;

import java.io.BufferedInputStream;
import java.io.DataInputStream;
import java.io.IOException;
import java.io.InputStream;
import java.nio.charset.StandardCharsets;
import java.nio.file.Files;
import java.nio.file.Path;
import java.util.HashMap;
import java.util.HashSet;
import java.util.Map;
import java.util.Set;
import java.util.TreeSet;
import java.util.regex.Matcher;
import java.util.regex.Pattern;

/**
 * The names that a processor may ask for by a text: those of the classes, and those in the strings, that its class
 * files have as constants; and those in its other files, such as templates. Its own classes are left out.
 */
final class AskedNames {
    private static final String WORD = "[\\p{L}_][\\p{L}\\p{N}_$]*";
    private static final Pattern DOTTED = Pattern.compile(WORD + "(?:\\." + WORD + ")+");
    private static final int MAGIC = 0xCAFEBABE;

    private final Set<String> names = new TreeSet<>();
    private final Set<String> own = new HashSet<>();

    private AskedNames() {}

    /** The canonical names that may be asked for; most of them are those of no type. */
    static Set<String> of(Iterable<Path> jars) throws IOException, InputFault {
        AskedNames asked = new AskedNames();
        for (Path jar : jars) {
            try (ClassPathEntry entry = ClassPathEntry.open(jar)) {
                asked.read(entry);
            }
        }
        asked.names.removeAll(asked.own);
        return asked.names;
    }

    private void read(ClassPathEntry jar) throws IOException, InputFault {
        for (String name : jar.classNames()) {
            own.add(canonical(name));
        }
        for (Path file : jar.files()) {
            String name = jar.name(file);
            if (ClassPathEntry.isClass(name)) {
                try (InputStream in = new BufferedInputStream(Files.newInputStream(file))) {
                    constants(new DataInputStream(in));
                } catch (IOException e) {
                    throw new InputFault(jar.path() + ": " + name + ": not a class file");
                }
            } else if (!name.startsWith("META-INF/maven/")) {
                text(new String(Files.readAllBytes(file), StandardCharsets.ISO_8859_1));
            }
        }
    }

    /** The class names and the strings of a constant pool (JVMS 4.4). */
    private void constants(DataInputStream in) throws IOException {
        if (in.readInt() != MAGIC) {
            throw new IOException("not a class file");
        }
        in.readInt(); // the version
        int count = in.readUnsignedShort();
        Map<Integer, String> texts = new HashMap<>();
        Set<Integer> classes = new HashSet<>();
        Set<Integer> strings = new HashSet<>();
        for (int i = 1; i < count; i++) {
            int tag = in.readUnsignedByte();
            switch (tag) {
                case 1: // Utf8
                    texts.put(i, in.readUTF());
                    break;
                case 7: // Class
                    classes.add(in.readUnsignedShort());
                    break;
                case 8: // String
                    strings.add(in.readUnsignedShort());
                    break;
                case 16: // MethodType
                case 19: // Module
                case 20: // Package
                    in.readUnsignedShort();
                    break;
                case 15: // MethodHandle
                    in.readUnsignedByte();
                    in.readUnsignedShort();
                    break;
                case 3: // Integer
                case 4: // Float
                case 9: // Fieldref
                case 10: // Methodref
                case 11: // InterfaceMethodref
                case 12: // NameAndType
                case 17: // Dynamic
                case 18: // InvokeDynamic
                    in.readInt();
                    break;
                case 5: // Long
                case 6: // Double, which take two places
                    in.readLong();
                    i++;
                    break;
                default:
                    throw new IOException("no constant has the tag " + tag);
            }
        }
        classes.forEach(i -> text(texts.getOrDefault(i, "").replace('/', '.')));
        strings.forEach(i -> text(texts.getOrDefault(i, "").replace('/', '.')));
    }

    private void text(String text) {
        Matcher matcher = DOTTED.matcher(text);
        while (matcher.find()) {
            names.add(canonical(matcher.group()));
        }
    }

    private static String canonical(String binaryName) {
        return binaryName.replace('$', '.');
    }
}
