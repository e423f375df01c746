package dinxobhe.model;

import java.io.PrintWriter;
import java.io.Writer;
import java.util.ArrayList;
import java.util.LinkedHashMap;
import java.util.List;
import java.util.Map;
import java.util.Optional;
import javax.lang.model.AnnotatedConstruct;
import javax.lang.model.element.AnnotationMirror;
import javax.lang.model.element.AnnotationValue;
import javax.lang.model.element.Element;
import javax.lang.model.element.ElementKind;
import javax.lang.model.element.ExecutableElement;
import javax.lang.model.element.Name;
import javax.lang.model.element.PackageElement;
import javax.lang.model.element.TypeElement;
import javax.lang.model.util.ElementFilter;
import javax.lang.model.util.Elements;

/** What processors ask about elements. */
final class HostElements implements Elements {
    private static final String INHERITED = "java.lang.annotation.Inherited";
    private static final String DEPRECATED = "java.lang.Deprecated";

    private final Model model;

    HostElements(Model model) {
        this.model = model;
    }

    private Overriding overriding() {
        return new Overriding(model.hostTypes());
    }

    @Override
    public PackageElement getPackageElement(CharSequence name) {
        return model.packageElement(name.toString()).orElse(null);
    }

    @Override
    public TypeElement getTypeElement(CharSequence name) {
        return model.typeElement(name.toString()).orElse(null);
    }

    @Override
    public String getDocComment(Element element) {
        return Model.refOf(element).flatMap(model.questions()::docComment).map(DocTexts::of).orElse(null);
    }

    @Override
    public boolean isDeprecated(Element element) {
        boolean isNeverDeprecated =
            element.getKind() == ElementKind.PARAMETER || element.getKind() == ElementKind.TYPE_PARAMETER;
        return !isNeverDeprecated && (element.getAnnotationMirrors().stream()
            .anyMatch(one -> one.getAnnotationType().toString().equals(DEPRECATED))
            || element.getKind() != ElementKind.PACKAGE && DocTexts.isDeprecating(getDocComment(element)));
    }

    // What is written, and what the language adds.

    @Override
    public Origin getOrigin(Element element) {
        return element instanceof HostDeclaration && !((HostDeclaration) element).isWritten()
            ? Origin.MANDATED : Origin.EXPLICIT;
    }

    @Override
    public Origin getOrigin(AnnotatedConstruct construct, AnnotationMirror annotation) {
        return annotation instanceof HostAnnotationMirror && !((HostAnnotationMirror) annotation).isWritten()
            ? Origin.MANDATED : Origin.EXPLICIT;
    }

    // Names.

    @Override
    public Name getBinaryName(TypeElement type) {
        return new HostName(type instanceof HostTypeElement ? binaryName((HostTypeElement) type)
            : type.getQualifiedName().toString());
    }

    static String binaryName(HostTypeElement type) {
        return type.ref().isUnit() ? type.ref().unit()
            : binaryName((HostTypeElement) type.getEnclosingElement()) + "$" + type.getSimpleName();
    }

    @Override
    public Name getName(CharSequence text) {
        return new HostName(text.toString());
    }

    @Override
    public String getConstantExpression(Object value) {
        return JavacLiterals.of(value);
    }

    @Override
    public PackageElement getPackageOf(Element element) {
        return element instanceof HostElement ? model.packageOf(((HostElement) element).ref())
            : (PackageElement) element.getEnclosingElement();
    }

    // Annotations.

    @Override
    public Map<ExecutableElement, AnnotationValue> getElementValuesWithDefaults(AnnotationMirror annotation) {
        return valuesWithDefaults(annotation);
    }

    /** The values that are written, and then the defaults of the other methods. */
    static Map<ExecutableElement, AnnotationValue> valuesWithDefaults(AnnotationMirror annotation) {
        Map<ExecutableElement, AnnotationValue> values = new LinkedHashMap<>(annotation.getElementValues());
        Element type = annotation.getAnnotationType().asElement();
        for (ExecutableElement method : ElementFilter.methodsIn(type.getEnclosedElements())) {
            Optional.ofNullable(method.getDefaultValue())
                .ifPresent(value -> values.putIfAbsent(method, value));
        }
        return values;
    }

    @Override
    public List<? extends AnnotationMirror> getAllAnnotationMirrors(Element element) {
        List<AnnotationMirror> all = new ArrayList<>(element.getAnnotationMirrors());
        if (element.getKind() != ElementKind.CLASS || !(element instanceof HostTypeElement)) {
            return JavacList.of(all);
        }
        for (HostTypeElement superclass : Supertypes.superclasses((HostTypeElement) element)) {
            for (AnnotationMirror inherited : superclass.getAnnotationMirrors()) {
                if (isInherited(inherited) && all.stream().noneMatch(one -> isSameType(one, inherited))) {
                    all.add(0, inherited);
                }
            }
        }
        return JavacList.of(all);
    }

    private static boolean isInherited(AnnotationMirror annotation) {
        return annotation.getAnnotationType().asElement().getAnnotationMirrors().stream()
            .anyMatch(one -> one.getAnnotationType().toString().equals(INHERITED));
    }

    private static boolean isSameType(AnnotationMirror one, AnnotationMirror other) {
        return one.getAnnotationType().asElement().equals(other.getAnnotationType().asElement());
    }

    // Members.

    @Override
    public List<? extends Element> getAllMembers(TypeElement type) {
        return type instanceof HostTypeElement ? new AllMembers(overriding()).of((HostTypeElement) type)
            : List.of();
    }

    @Override
    public boolean hides(Element hider, Element hidden) {
        boolean areMembers = isMember(hider) && isMember(hidden);
        return areMembers && overriding().hides((HostDeclaration) hider, (HostDeclaration) hidden);
    }

    private static boolean isMember(Element element) {
        return element instanceof HostDeclaration && element.getEnclosingElement() instanceof HostTypeElement;
    }

    @Override
    public boolean overrides(ExecutableElement overrider, ExecutableElement overridden, TypeElement type) {
        return overriding().overrides((HostExecutableElement) overrider, (HostExecutableElement) overridden,
            (HostTypeElement) type);
    }

    @Override
    public boolean isFunctionalInterface(TypeElement type) {
        return type.getKind() == ElementKind.INTERFACE && type instanceof HostTypeElement
            && overriding().abstractMethods((HostTypeElement) type).stream()
                .map(method -> method.getSimpleName() + method.asType().getParameterTypes().toString())
                .distinct().count() == 1;
    }

    @Override
    public void printElements(Writer writer, Element... elements) {
        PrintWriter printer = new PrintWriter(writer);
        for (Element element : elements) {
            new ElementPrinter(this, printer).print(element);
        }
        printer.flush();
    }
}
