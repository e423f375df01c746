package dinxobhe.stubs;

import static java.nio.charset.StandardCharsets.UTF_8;

import com.sun.source.tree.BlockTree;
import com.sun.source.tree.ClassTree;
import com.sun.source.tree.CompilationUnitTree;
import com.sun.source.tree.ExpressionTree;
import com.sun.source.tree.IdentifierTree;
import com.sun.source.tree.ImportTree;
import com.sun.source.tree.LambdaExpressionTree;
import com.sun.source.tree.MemberSelectTree;
import com.sun.source.tree.MethodInvocationTree;
import com.sun.source.tree.NewClassTree;
import com.sun.source.tree.Tree;
import com.sun.source.util.JavacTask;
import com.sun.source.util.TreeScanner;
import java.io.File;
import java.io.IOException;
import java.nio.file.Files;
import java.nio.file.Path;
import java.util.ArrayList;
import java.util.HashSet;
import java.util.LinkedHashSet;
import java.util.List;
import java.util.Locale;
import java.util.Set;
import java.util.stream.Collectors;
import java.util.stream.Stream;
import javax.tools.Diagnostic;
import javax.tools.DiagnosticCollector;
import javax.tools.JavaCompiler;
import javax.tools.JavaFileObject;
import javax.tools.StandardJavaFileManager;

/**
 * What the Java files of a project declare, and which types their declarations may name. Bodies of methods are no
 * declarations, and neither is what stands within calls in initialisers.
 */
final class SourceNames {
    private final Set<String> declared = new HashSet<>();
    private final Set<String> packages = new HashSet<>();
    private final Set<String> named = new LinkedHashSet<>();

    private SourceNames() {}

    static SourceNames of(JavaCompiler compiler, Iterable<Path> folders) throws IOException, InputFault {
        SourceNames names = new SourceNames();
        List<File> files = new ArrayList<>();
        for (Path folder : folders) {
            files.addAll(javaFiles(folder));
        }
        if (!files.isEmpty()) {
            names.read(compiler, files);
        }
        return names;
    }

    private static List<File> javaFiles(Path folder) throws IOException, InputFault {
        if (!Files.isDirectory(folder)) {
            throw new InputFault(folder + ": there is no such folder");
        }
        try (Stream<Path> walk = Files.walk(folder)) {
            return walk.filter(path -> path.toString().endsWith(".java")).filter(Files::isRegularFile)
                .sorted().map(Path::toFile).collect(Collectors.toList());
        }
    }

    private void read(JavaCompiler compiler, List<File> files) throws IOException, InputFault {
        DiagnosticCollector<JavaFileObject> said = new DiagnosticCollector<>();
        List<String> options = List.of("-proc:none", "-Xlint:none");
        try (StandardJavaFileManager manager = compiler.getStandardFileManager(said, null, UTF_8)) {
            JavacTask task = (JavacTask) compiler.getTask(null, manager, said, options, null,
                manager.getJavaFileObjectsFromFiles(files));
            for (CompilationUnitTree unit : task.parse()) {
                add(unit);
            }
        }
        for (Diagnostic<? extends JavaFileObject> one : said.getDiagnostics()) {
            if (one.getKind() == Diagnostic.Kind.ERROR) {
                String file = one.getSource() == null ? "" : one.getSource().getName() + ":";
                throw new InputFault(file + one.getLineNumber() + ": " + one.getMessage(Locale.ENGLISH));
            }
        }
    }

    private void add(CompilationUnitTree unit) {
        String of = unit.getPackageName() == null ? "" : unit.getPackageName().toString();
        packages.add(of);
        for (Tree type : unit.getTypeDecls()) {
            if (type instanceof ClassTree) {
                declared.add(member(of, ((ClassTree) type).getSimpleName().toString()));
            }
        }
        UnitScanner scanner = new UnitScanner();
        scanner.scan(unit, null);
        scanner.scopes.add(of);
        for (String simple : scanner.simple) {
            for (String scope : scanner.scopes) {
                named.add(member(scope, simple));
            }
        }
        named.addAll(scanner.chains);
    }

    /** The canonical names of the top-level types that the files declare. */
    Set<String> declared() {
        return declared;
    }

    /** The packages of the files. */
    Set<String> packages() {
        return packages;
    }

    /** The canonical names that a declaration or an import may mean; many are those of no type. */
    Set<String> named() {
        return named;
    }

    private static String member(String of, String simple) {
        return of.isEmpty() ? simple : of + "." + simple;
    }

    /** Collects the names of one file. */
    private static final class UnitScanner extends TreeScanner<Void, Void> {
        /** The packages and types whose members have simple names in the file. */
        private final Set<String> scopes = new LinkedHashSet<>(Set.of("java.lang"));
        private final Set<String> simple = new LinkedHashSet<>();
        /** Names with dots, each with its prefixes. */
        private final Set<String> chains = new LinkedHashSet<>();

        @Override
        public Void visitImport(ImportTree tree, Void unused) {
            String name = tree.getQualifiedIdentifier().toString();
            if (name.endsWith(".*")) {
                String scope = name.substring(0, name.length() - 2);
                scopes.add(scope);
                addChain(scope);
            } else {
                addChain(name);
            }
            return null;
        }

        @Override
        public Void visitIdentifier(IdentifierTree tree, Void unused) {
            simple.add(tree.getName().toString());
            return null;
        }

        @Override
        public Void visitMemberSelect(MemberSelectTree tree, Void unused) {
            if (isChain(tree)) {
                addChain(tree.toString());
            }
            return super.visitMemberSelect(tree, unused);
        }

        @Override
        public Void visitBlock(BlockTree tree, Void unused) {
            return null;
        }

        @Override
        public Void visitLambdaExpression(LambdaExpressionTree tree, Void unused) {
            return null;
        }

        @Override
        public Void visitMethodInvocation(MethodInvocationTree tree, Void unused) {
            return null;
        }

        @Override
        public Void visitNewClass(NewClassTree tree, Void unused) {
            return null;
        }

        private static boolean isChain(ExpressionTree tree) {
            return tree instanceof IdentifierTree
                || tree instanceof MemberSelectTree && isChain(((MemberSelectTree) tree).getExpression());
        }

        private void addChain(String name) {
            for (int end = name.indexOf('.'); end >= 0; end = name.indexOf('.', end + 1)) {
                chains.add(name.substring(0, end));
            }
            chains.add(name);
        }
    }
}
