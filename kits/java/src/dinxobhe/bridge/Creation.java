package dinxobhe.bridge;

import dinxobhe.frames.Answers;
import dinxobhe.frames.Frame;
import dinxobhe.frames.Ref;
import dinxobhe.frames.Tag;
import java.util.List;
import java.util.function.Function;

/** A file that is to be created: its path, and the frame that creates it once its content is known. */
final class Creation {
    private final String path;
    private final String typeName;
    private final Function<byte[], Frame> frame;

    private Creation(String path, String typeName, Function<byte[], Frame> frame) {
        this.path = path;
        this.typeName = typeName;
        this.frame = frame;
    }

    static Creation source(String name, List<Ref> origins) {
        return new Creation(path("SOURCE_OUTPUT", "", name.replace('.', '/') + ".java"), name,
            content -> new Frame(Tag.CREATE_SOURCE, name, content, origins));
    }

    static Creation ofClass(String name, List<Ref> origins) {
        return new Creation(path("CLASS_OUTPUT", "", name.replace('.', '/') + ".class"), name,
            content -> new Frame(Tag.CREATE_CLASS, name, content, origins));
    }

    static Creation resource(Answers.Location location, String packageName, String relative,
            List<Ref> origins) {
        return new Creation(path(location.name(), packageName, relative), "",
            content -> new Frame(Tag.CREATE_RESOURCE, location, packageName, relative, content, origins));
    }

    /** The path of a file: its location, its package as folders, and its name. */
    static String path(String location, String packageName, String relative) {
        return location + "/" + (packageName.isEmpty() ? "" : packageName.replace('.', '/') + "/") + relative;
    }

    String path() {
        return path;
    }

    /** The name of the type; nothing for a resource. */
    String typeName() {
        return typeName;
    }

    Frame frame(byte[] content) {
        return frame.apply(content);
    }
}
