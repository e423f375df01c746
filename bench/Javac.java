import com.sun.source.util.JavacTask;
import com.sun.source.util.TaskEvent;
import com.sun.source.util.TaskListener;
import java.lang.management.ManagementFactory;
import java.nio.charset.StandardCharsets;
import java.nio.file.Path;
import java.util.List;
import java.util.Locale;
import java.util.stream.Collectors;
import javax.lang.model.element.TypeElement;
import javax.lang.model.element.TypeParameterElement;
import javax.lang.model.type.ArrayType;
import javax.lang.model.type.DeclaredType;
import javax.lang.model.type.TypeMirror;
import javax.lang.model.type.TypeVariable;
import javax.lang.model.type.WildcardType;
import javax.tools.Diagnostic;
import javax.tools.DiagnosticListener;
import javax.tools.JavaCompiler;
import javax.tools.JavaFileObject;
import javax.tools.StandardJavaFileManager;
import javax.tools.ToolProvider;

/** The JDK's compiler over files of the module java.base, and types in the words that the measured program has for them. */
final class Javac {
    private Javac() {}

    /** Counts errors, and tells them where that is wanted. */
    static final class Errors implements DiagnosticListener<JavaFileObject> {
        private final boolean isTold;
        private long count;

        Errors(boolean isTold) {
            this.isTold = isTold;
        }

        long count() {
            return count;
        }

        @Override
        public void report(Diagnostic<? extends JavaFileObject> diagnostic) {
            if (diagnostic.getKind() == Diagnostic.Kind.ERROR) {
                count++;
                if (isTold) {
                    System.err.println(diagnostic);
                }
            }
        }
    }

    /**
     * The time from where the first file's declarations are entered to where the last one's are. javac enters all files once more
     * for the last round, in which there are no roots: that counts for nothing.
     */
    static final class Entering implements TaskListener {
        private long start = -1;
        private long end;
        private boolean isOver;

        long nanos() {
            return end - start;
        }

        @Override
        public void started(TaskEvent event) {
            if (event.getKind() == TaskEvent.Kind.ENTER && start < 0) {
                start = processorNanos();
            } else if (event.getKind() == TaskEvent.Kind.ANNOTATION_PROCESSING_ROUND) {
                isOver = true;
            }
        }

        @Override
        public void finished(TaskEvent event) {
            if (event.getKind() == TaskEvent.Kind.ENTER && !isOver) {
                end = processorNanos();
            }
        }
    }

    /** The processor time of this thread alone, so that neither the collector nor the compiler of the JVM is in it. */
    static long processorNanos() {
        return ManagementFactory.getThreadMXBean().getCurrentThreadCpuTime();
    }

    static StandardJavaFileManager files() {
        return ToolProvider.getSystemJavaCompiler().getStandardFileManager(null, null, StandardCharsets.UTF_8);
    }

    /** A compiler of files that stand below a folder, which enters them and runs processors. */
    static JavacTask task(StandardJavaFileManager manager, String folder, List<Path> files, Errors errors) {
        JavaCompiler compiler = ToolProvider.getSystemJavaCompiler();
        List<String> options = List.of("-proc:only", "-implicit:none", "-nowarn", "-Xmaxerrs", "100000", "--patch-module", "java.base=" + folder);
        return (JavacTask) compiler.getTask(null, manager, errors, options, null, manager.getJavaFileObjectsFromPaths(files));
    }

    /** A type. What encloses a member type is left out. */
    static String words(TypeMirror type) {
        switch (type.getKind()) {
            case ARRAY:
                return words(((ArrayType) type).getComponentType()) + "[]";
            case DECLARED:
                return declared((DeclaredType) type);
            case TYPEVAR:
                return variable((TypeParameterElement) ((TypeVariable) type).asElement());
            case WILDCARD:
                return wildcard((WildcardType) type);
            default:
                return type.getKind().name().toLowerCase(Locale.ROOT);
        }
    }

    private static String declared(DeclaredType type) {
        String name = ((TypeElement) type.asElement()).getQualifiedName().toString();
        if (type.getTypeArguments().isEmpty()) {
            return name;
        }
        return type.getTypeArguments().stream().map(Javac::words).collect(Collectors.joining(",", name + "<", ">"));
    }

    // The type around a type parameter, and the parameter's place.
    private static String variable(TypeParameterElement parameter) {
        TypeElement around = (TypeElement) parameter.getGenericElement();
        return around.getQualifiedName() + ":" + around.getTypeParameters().indexOf(parameter);
    }

    private static String wildcard(WildcardType type) {
        if (type.getExtendsBound() != null) {
            return "? extends " + words(type.getExtendsBound());
        }
        return type.getSuperBound() != null ? "? super " + words(type.getSuperBound()) : "?";
    }
}
