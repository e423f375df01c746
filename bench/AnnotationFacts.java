import com.sun.source.tree.AnnotationTree;
import com.sun.source.tree.BinaryTree;
import com.sun.source.tree.ClassTree;
import com.sun.source.tree.ExpressionTree;
import com.sun.source.tree.IdentifierTree;
import com.sun.source.tree.LiteralTree;
import com.sun.source.tree.MemberSelectTree;
import com.sun.source.tree.MethodTree;
import com.sun.source.tree.NewArrayTree;
import com.sun.source.tree.Tree;
import com.sun.source.tree.UnaryTree;
import com.sun.source.tree.VariableTree;
import com.sun.source.util.TreePath;
import com.sun.source.util.TreeScanner;
import com.sun.source.util.Trees;
import java.io.PrintStream;
import java.util.ArrayList;
import java.util.LinkedHashMap;
import java.util.List;
import java.util.Map;
import javax.lang.model.element.AnnotationMirror;
import javax.lang.model.element.AnnotationValue;
import javax.lang.model.element.Element;
import javax.lang.model.element.ElementKind;
import javax.lang.model.element.TypeElement;
import javax.lang.model.element.VariableElement;
import javax.lang.model.type.DeclaredType;
import javax.lang.model.type.TypeKind;
import javax.lang.model.type.TypeMirror;
import javax.lang.model.util.Types;

/**
 * What decides how far javac and the library differ on the annotations and the constants of an element.
 *
 * <p>A line {@code # names ELEMENT NAME FORM..} says of a name in the annotations of an element, or in its initialiser or default, what the
 * field that it means begins with. It is {@code constant} for an enum constant; {@code form} for a constant form, that is a literal, a
 * negated number, a class literal, what is joined of literals and names, or any of these in braces; {@code text} for such a one with a text
 * as its value; {@code expression} for any other initialiser; and {@code absent} where there is none, or no source. Behind it {@code own} says
 * that the element is a type that declares or inherits another field of this name, and {@code private} that a type around the element has a supertype with a field of this
 * name that it does not inherit. A line {@code # form ELEMENT FORM} says the same of the initialiser of a field.
 */
final class AnnotationFacts {
    private static final String EXPRESSION = "expression";

    private final PrintStream out;
    private final Types types;
    private final Trees trees;
    private final ElementWords words;

    AnnotationFacts(PrintStream out, Types types, Trees trees, ElementWords words) {
        this.out = out;
        this.types = types;
        this.trees = trees;
        this.words = words;
    }

    /** Annotations in the order of the library: the written ones first. javac has inherited ones before them. */
    List<AnnotationMirror> inOrder(List<? extends AnnotationMirror> all, List<? extends AnnotationMirror> written) {
        List<AnnotationMirror> order = new ArrayList<>(written);
        all.stream().filter(each -> !written.contains(each)).forEach(order::add);
        return order;
    }

    // ---- annotations that are written more than once

    // The annotation that javac makes has the place of what it is on.
    private boolean isMadeFor(Element of, AnnotationMirror mirror) {
        if (!of.getAnnotationMirrors().contains(mirror)) {
            return of.getKind() == ElementKind.CLASS && classesAbove(of).stream()
                    .anyMatch(each -> each.getAnnotationMirrors().contains(mirror) && isMadeFor(each, mirror));
        }
        TreePath path = trees.getPath(of, mirror);
        return path != null && !(path.getLeaf() instanceof AnnotationTree);
    }

    /** Annotations, of which each that javac makes for several of one interface is those that are written. */
    List<AnnotationMirror> apart(Element of, List<? extends AnnotationMirror> mirrors) {
        List<AnnotationMirror> apart = new ArrayList<>();
        for (AnnotationMirror each : mirrors) {
            if (isMadeFor(of, each)) {
                List<?> inner = (List<?>) each.getElementValues().values().iterator().next().getValue();
                inner.forEach(item -> apart.add((AnnotationMirror) ((AnnotationValue) item).getValue()));
            } else {
                apart.add(each);
            }
        }
        return apart;
    }

    // ---- names and the forms of initialisers

    /** The trees of the annotations of an element. */
    List<Tree> annotationTrees(Element of) {
        List<Tree> found = new ArrayList<>();
        for (AnnotationMirror each : of.getAnnotationMirrors()) {
            TreePath path = trees.getPath(of, each);
            if (path != null) {
                found.addAll(annotationsAt(path.getLeaf()));
            }
        }
        return found;
    }

    // The annotation that stands there, or those of what is declared there, where javac made one of them.
    private static List<? extends Tree> annotationsAt(Tree tree) {
        if (tree instanceof ClassTree) {
            return ((ClassTree) tree).getModifiers().getAnnotations();
        }
        if (tree instanceof MethodTree) {
            return ((MethodTree) tree).getModifiers().getAnnotations();
        }
        if (tree instanceof VariableTree) {
            return ((VariableTree) tree).getModifiers().getAnnotations();
        }
        return List.of(tree);
    }

    /** The tree of an element, if it has one. */
    List<Tree> treeOf(Element of) {
        Tree tree = trees.getTree(of);
        return tree == null ? List.of() : List.of(tree);
    }

    /** The classes above a class, the nearest first. */
    List<TypeElement> classesAbove(Element of) {
        List<TypeElement> above = new ArrayList<>();
        TypeMirror next = ((TypeElement) of).getSuperclass();
        while (next.getKind() == TypeKind.DECLARED) {
            above.add((TypeElement) ((DeclaredType) next).asElement());
            next = above.get(above.size() - 1).getSuperclass();
        }
        return above;
    }

    /** Tells the names in trees at an element as names at another one, or at it. */
    void tellNames(Element of, Element at, List<Tree> written) {
        TreePath around = trees.getPath(at);
        if (around == null) {
            return;
        }
        Map<String, String> told = new LinkedHashMap<>();
        for (Tree each : written) {
            new TreeScanner<Void, Void>() {
                @Override
                public Void visitIdentifier(IdentifierTree name, Void none) {
                    note(name);
                    return null;
                }

                @Override
                public Void visitMemberSelect(MemberSelectTree name, Void none) {
                    note(name);
                    return null;
                }

                private void note(ExpressionTree name) {
                    if (name.toString().endsWith(".class")) {
                        return;
                    }
                    Element means = meaning(around, name);
                    if (means instanceof VariableElement) {
                        told.put(name.toString(), formOf((VariableElement) means, 0) + flags(of, name, means));
                    }
                }
            }.scan(each, null);
        }
        told.forEach((name, form) -> out.println("# names " + words.element(of) + " " + name + " " + form));
    }

    // What a name in the declaration at a path means.
    private Element meaning(TreePath around, ExpressionTree name) {
        TreePath path = TreePath.getPath(around, name);
        return path == null ? null : trees.getElement(path);
    }

    private String flags(Element of, ExpressionTree name, Element means) {
        if (!(name instanceof IdentifierTree)) {
            return "";
        }
        if (of instanceof TypeElement && hasOrInherits((TypeElement) of, means)) {
            return " own";
        }
        for (Element each = of; each != null && each.getKind() != ElementKind.PACKAGE; each = each.getEnclosingElement()) {
            if (each instanceof TypeElement && above((TypeElement) each).stream().anyMatch(type -> has(type, means))) {
                return " private";
            }
        }
        return "";
    }

    private boolean hasOrInherits(TypeElement type, Element field) {
        return has(type, field) || above(type).stream().anyMatch(each -> has(each, field));
    }

    // Whether a type declares another field of that name.
    private static boolean has(TypeElement type, Element field) {
        return type.getEnclosedElements().stream().anyMatch(each -> each.getKind().isField() && each != field
                && each.getSimpleName().equals(field.getSimpleName()));
    }

    private List<TypeElement> above(TypeElement of) {
        List<TypeElement> above = new ArrayList<>();
        for (TypeMirror each : types.directSupertypes(of.asType())) {
            TypeElement element = (TypeElement) ((DeclaredType) each).asElement();
            above.add(element);
            above.addAll(above(element));
        }
        return above;
    }

    /** What the initialiser of a field begins with. */
    String formOf(VariableElement of) {
        return formOf(of, 0);
    }

    private String formOf(VariableElement of, int level) {
        if (of.getKind() == ElementKind.ENUM_CONSTANT) {
            return "constant";
        }
        Tree tree = of.getKind() == ElementKind.FIELD ? trees.getTree(of) : null;
        ExpressionTree initialiser = tree instanceof VariableTree ? ((VariableTree) tree).getInitializer() : null;
        if (initialiser == null || level > 64) {
            return "absent";
        }
        return formOf(trees.getPath(of), initialiser, level);
    }

    private String formOf(TreePath around, ExpressionTree of, int level) {
        switch (of.getKind()) {
            case STRING_LITERAL:
                return "text";
            case INT_LITERAL:
            case LONG_LITERAL:
            case FLOAT_LITERAL:
            case DOUBLE_LITERAL:
            case CHAR_LITERAL:
            case BOOLEAN_LITERAL:
            case NULL_LITERAL:
                return "form";
            case UNARY_MINUS:
                ExpressionTree negated = ((UnaryTree) of).getExpression();
                return negated instanceof LiteralTree ? "form" : EXPRESSION;
            case PLUS:
                return joined(around, (BinaryTree) of, level);
            case NEW_ARRAY:
                List<? extends ExpressionTree> items = ((NewArrayTree) of).getInitializers();
                boolean isPlain = ((NewArrayTree) of).getType() == null && items != null
                        && items.stream().noneMatch(each -> formOf(around, each, level).equals(EXPRESSION));
                return isPlain ? "form" : EXPRESSION;
            case IDENTIFIER:
            case MEMBER_SELECT:
                if (of.toString().endsWith(".class")) {
                    return "form";
                }
                Element means = meaning(around, of);
                return means instanceof VariableElement ? formOf((VariableElement) means, level + 1) : EXPRESSION;
            default:
                return EXPRESSION;
        }
    }

    private String joined(TreePath around, BinaryTree of, int level) {
        ExpressionTree left = of.getLeftOperand();
        ExpressionTree right = of.getRightOperand();
        String first = left.getKind() == Tree.Kind.PLUS ? formOf(around, left, level) : item(around, left, level);
        String second = item(around, right, level);
        if (first.equals(EXPRESSION) || second.equals(EXPRESSION)) {
            return EXPRESSION;
        }
        return first.equals("text") && second.equals("text") ? "text" : "form";
    }

    // A name is an item whatever it means.
    private String item(TreePath around, ExpressionTree of, int level) {
        if (of instanceof LiteralTree) {
            return formOf(around, of, level);
        }
        boolean isName = of instanceof IdentifierTree || of instanceof MemberSelectTree && !of.toString().endsWith(".class");
        if (!isName) {
            return EXPRESSION;
        }
        return formOf(around, of, level).equals("text") ? "text" : "form";
    }
}
