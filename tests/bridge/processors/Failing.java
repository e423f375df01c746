import com.sun.source.util.Trees;
import java.io.IOException;
import java.io.UncheckedIOException;
import java.util.Set;
import javax.annotation.processing.AbstractProcessor;
import javax.annotation.processing.ProcessingEnvironment;
import javax.annotation.processing.RoundEnvironment;
import javax.lang.model.SourceVersion;
import javax.lang.model.element.TypeElement;
import javax.lang.model.type.TypeMirror;
import javax.lang.model.util.Types;

/** Fails in the first round. The others fail elsewhere, or by something else. */
public class Failing extends AbstractProcessor {
    @Override
    public Set<String> getSupportedAnnotationTypes() {
        return Set.of("*");
    }

    @Override
    public SourceVersion getSupportedSourceVersion() {
        return SourceVersion.latestSupported();
    }

    @Override
    public boolean process(Set<? extends TypeElement> annotations, RoundEnvironment environment) {
        throw new IllegalStateException("on purpose");
    }

    /** Fails where its class is made ready. */
    public static final class InClass extends Failing {
        private static final int NUMBER = Integer.parseInt("none");

        @Override
        public String toString() {
            return String.valueOf(NUMBER);
        }
    }

    /** Fails by an exception that has to be declared, in its constructor. */
    public static final class InConstructor extends Failing {
        public InConstructor() throws IOException {
            throw new IOException("on purpose");
        }
    }

    /** Fails where it is initialised. */
    public static final class WhereInitialised extends Failing {
        @Override
        public synchronized void init(ProcessingEnvironment environment) {
            throw new IllegalStateException("on purpose");
        }
    }

    /** Fails where it says its options. */
    public static final class InOptions extends Failing {
        @Override
        public Set<String> getSupportedOptions() {
            throw new IllegalStateException("on purpose");
        }
    }

    /** Fails as one does that could not write a file. */
    public static final class ByFiles extends Failing {
        @Override
        public boolean process(Set<? extends TypeElement> annotations, RoundEnvironment environment) {
            throw new UncheckedIOException(new IOException("on purpose"));
        }
    }

    /** Fails since the host creates no class files. */
    public static final class ByClassFile extends Failing {
        @Override
        public boolean process(Set<? extends TypeElement> annotations, RoundEnvironment environment) {
            try {
                processingEnv.getFiler().createClassFile("p.Made").openOutputStream().close();
            } catch (IOException e) {
                throw new UncheckedIOException(e);
            }
            return false;
        }
    }

    /** Fails since the host is no compiler of which there are trees. */
    public static final class ByTrees extends Failing {
        @Override
        public boolean process(Set<? extends TypeElement> annotations, RoundEnvironment environment) {
            return Trees.instance(processingEnv) == null;
        }
    }

    /** Fails since wildcards are not captured. */
    public static final class ByCapture extends Failing {
        @Override
        public boolean process(Set<? extends TypeElement> annotations, RoundEnvironment environment) {
            Types types = processingEnv.getTypeUtils();
            TypeElement list = processingEnv.getElementUtils().getTypeElement("java.util.List");
            return types.capture(types.getDeclaredType(list, types.getWildcardType(null, null))) == null;
        }
    }

    /** Does not end before the stack does, and asks at each step. */
    public static final class ByDepth extends Failing {
        @Override
        public boolean process(Set<? extends TypeElement> annotations, RoundEnvironment environment) {
            TypeMirror object = processingEnv.getElementUtils().getTypeElement("java.lang.Object").asType();
            return deeper(object, processingEnv.getElementUtils().getTypeElement("p.Old").asType());
        }

        private boolean deeper(TypeMirror above, TypeMirror type) {
            return processingEnv.getTypeUtils().isSubtype(type, above) && deeper(above, type)
                && processingEnv.getTypeUtils().isSubtype(above, type);
        }
    }
}
