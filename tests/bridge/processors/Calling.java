import java.io.IOException;
import java.io.UncheckedIOException;
import java.io.Writer;
import java.util.ArrayList;
import java.util.Arrays;
import java.util.List;
import java.util.Set;
import java.util.function.Supplier;
import java.util.stream.Collectors;
import javax.annotation.processing.AbstractProcessor;
import javax.annotation.processing.RoundEnvironment;
import javax.annotation.processing.SupportedAnnotationTypes;
import javax.lang.model.SourceVersion;
import javax.lang.model.element.AnnotationMirror;
import javax.lang.model.element.AnnotationValue;
import javax.lang.model.element.Element;
import javax.lang.model.element.ExecutableElement;
import javax.lang.model.element.Name;
import javax.lang.model.element.PackageElement;
import javax.lang.model.element.TypeElement;
import javax.lang.model.element.TypeParameterElement;
import javax.lang.model.element.VariableElement;
import javax.lang.model.type.ArrayType;
import javax.lang.model.type.DeclaredType;
import javax.lang.model.type.ErrorType;
import javax.lang.model.type.ExecutableType;
import javax.lang.model.type.IntersectionType;
import javax.lang.model.type.NoType;
import javax.lang.model.type.NullType;
import javax.lang.model.type.PrimitiveType;
import javax.lang.model.type.TypeKind;
import javax.lang.model.type.TypeMirror;
import javax.lang.model.type.TypeVariable;
import javax.lang.model.type.WildcardType;
import javax.lang.model.util.AbstractAnnotationValueVisitor9;
import javax.lang.model.util.AbstractTypeVisitor9;
import javax.lang.model.util.ElementFilter;
import javax.lang.model.util.ElementKindVisitor9;
import javax.lang.model.util.ElementScanner9;
import javax.lang.model.util.Elements;
import javax.lang.model.util.Types;
import javax.tools.Diagnostic;
import javax.tools.FileObject;
import javax.tools.JavaFileObject;
import javax.tools.StandardLocation;

/** Calls what the other processors of this folder don't call, and writes a file on what it was given. */
@SupportedAnnotationTypes("*")
public final class Calling extends AbstractProcessor {
    private final StringBuilder out = new StringBuilder();
    private Elements elements;
    private Types types;

    @Override
    public SourceVersion getSupportedSourceVersion() {
        return SourceVersion.latestSupported();
    }

    @Override
    public boolean process(Set<? extends TypeElement> annotations, RoundEnvironment round) {
        elements = processingEnv.getElementUtils();
        types = processingEnv.getTypeUtils();
        line("round", round::toString);
        if (round.processingOver()) {
            write();
        }
        TypeElement calls = elements.getTypeElement("e.Calls");
        if (!round.getRootElements().contains(calls)) {
            return false;
        }
        line("locale", () -> processingEnv.getLocale().toString().isEmpty());
        names(calls);
        packages();
        modules(calls);
        visited(calls);
        List<VariableElement> fields = ElementFilter.fieldsIn(calls.getEnclosedElements());
        List<TypeMirror> all = new ArrayList<>();
        fields.forEach(field -> all.add(field.asType()));
        calls.getTypeParameters().forEach(one -> all.add(((TypeVariable) one.asType()).getUpperBound()));
        all.add(elements.getPackageElement("e").asType());
        ElementFilter.methodsIn(calls.getEnclosedElements()).forEach(one -> all.add(one.asType()));
        made(all);
        all.forEach(this::type);
        // javac fails for what is no type at all.
        all.removeIf(one -> one.getKind() == TypeKind.NONE);
        for (TypeMirror one : all) {
            all.forEach(other -> relations(one, other));
        }
        values(calls);
        files(calls);
        messages(calls);
        return false;
    }

    // Elements.

    private void names(TypeElement calls) {
        Name name = elements.getName("Calls");
        line("name", () -> name.contentEquals("Calls") + " " + name.contentEquals(new StringBuilder("Call")) + " "
            + name.length() + name.charAt(1) + name.subSequence(1, 3) + name.equals(calls.getSimpleName())
            + (name.hashCode() == calls.getSimpleName().hashCode()) + name.equals("Calls"));
        line("no character", () -> name.charAt(5));
        line("equal", () -> calls.equals(elements.getTypeElement("e.Calls")) + " "
            + (calls.hashCode() == elements.getTypeElement("e.Calls").hashCode()) + calls.equals(null));
        for (String text : List.of("e.Calls.Inner", "e.Calls$Inner", "e.None", "", "e", "int", "Calls", "e.Calls[]",
                "java.util.Map.Entry")) {
            line("type " + text, () -> elements.getTypeElement(text));
        }
    }

    private void packages() {
        for (String text : List.of("e", "java.lang", "none", "", "e.Calls", "1")) {
            line("package " + text, () -> elements.getPackageElement(text));
        }
        PackageElement own = elements.getPackageElement("e");
        line("of package", () -> own.getQualifiedName() + " " + own.getSimpleName() + own.isUnnamed() + own.getKind()
            + own.getModifiers() + own.asType() + own.asType().getKind() + elements.getPackageOf(own));
        line("in package", () -> own.getEnclosedElements().stream().map(Object::toString).sorted()
            .collect(Collectors.toList()));
    }

    private void modules(TypeElement calls) {
        line("module", () -> elements.getModuleElement("java.base"));
        line("module of", () -> elements.getModuleOf(calls));
        line("no modules", () -> elements.getAllModuleElements().isEmpty());
        line("around package", () -> elements.getPackageElement("e").getEnclosingElement());
        line("all types", () -> elements.getAllTypeElements("e.Calls"));
        line("all packages", () -> elements.getAllPackageElements("e"));
        line("type of no module", () -> elements.getTypeElement(null, "e.Calls"));
    }

    private void visited(TypeElement calls) {
        List<String> seen = new ArrayList<>();
        new ElementScanner9<Void, Void>() {
            @Override
            public Void scan(Element element, Void parameter) {
                seen.add(element.accept(new Kinds(), "") + " " + element);
                return super.scan(element, parameter);
            }

            @Override
            public Void visitType(TypeElement element, Void parameter) {
                scan(element.getTypeParameters(), parameter);
                return super.visitType(element, parameter);
            }
        }.scan(calls, null);
        line("visited", () -> String.join("\n", seen));
        for (TypeParameterElement one : calls.getTypeParameters()) {
            line("parameter " + one, () -> one.getGenericElement() + " " + one.getBounds() + one.getKind()
                + one.getModifiers() + one.getEnclosedElements() + one.getEnclosingElement());
        }
        line("kinds", () -> ElementFilter.typesIn(calls.getEnclosedElements()) + " "
            + ElementFilter.constructorsIn(calls.getEnclosedElements()));
    }

    private static final class Kinds extends ElementKindVisitor9<String, String> {
        @Override
        protected String defaultAction(Element element, String parameter) {
            return element.getKind().toString();
        }

        @Override
        public String visitTypeAsClass(TypeElement element, String parameter) {
            return "class " + element.getNestingKind();
        }

        @Override
        public String visitVariableAsParameter(VariableElement element, String parameter) {
            return "parameter of " + element.getEnclosingElement();
        }

        @Override
        public String visitExecutable(ExecutableElement element, String parameter) {
            return "executable " + element.getReceiverType() + element.getThrownTypes();
        }
    }

    // Types.

    /** Adds types that are in no source, and says which are refused. */
    private void made(List<TypeMirror> all) {
        TypeElement list = elements.getTypeElement("java.util.List");
        TypeElement outer = elements.getTypeElement("e.Calls.Outer");
        TypeElement part = elements.getTypeElement("e.Calls.Outer.Part");
        TypeMirror text = elements.getTypeElement("java.lang.String").asType();
        TypeMirror number = types.getPrimitiveType(TypeKind.INT);
        add(all, "null", types::getNullType);
        add(all, "void", () -> types.getNoType(TypeKind.VOID));
        add(all, "none", () -> types.getNoType(TypeKind.NONE));
        add(all, "no type", () -> types.getNoType(TypeKind.INT));
        add(all, "no primitive", () -> types.getPrimitiveType(TypeKind.VOID));
        add(all, "array", () -> types.getArrayType(types.getArrayType(text)));
        add(all, "array of void", () -> types.getArrayType(types.getNoType(TypeKind.VOID)));
        add(all, "wildcard", () -> types.getWildcardType(null, null));
        add(all, "below", () -> types.getWildcardType(text, null));
        add(all, "above", () -> types.getWildcardType(null, text));
        add(all, "both", () -> types.getWildcardType(text, text));
        add(all, "list", () -> types.getDeclaredType(list, text));
        add(all, "raw list", () -> types.getDeclaredType(list));
        add(all, "list of two", () -> types.getDeclaredType(list, text, text));
        add(all, "list of int", () -> types.getDeclaredType(list, number));
        add(all, "list of wildcard", () -> types.getDeclaredType(list, types.getWildcardType(text, null)));
        add(all, "part", () -> types.getDeclaredType(types.getDeclaredType(outer, text), part));
        add(all, "part of raw", () -> types.getDeclaredType(types.getDeclaredType(outer), part));
        add(all, "part of list", () -> types.getDeclaredType(types.getDeclaredType(list, text), part));
        add(all, "within nothing", () -> types.getDeclaredType((DeclaredType) null, list, text));
        for (TypeKind kind : TypeKind.values()) {
            if (kind.isPrimitive()) {
                line("boxed " + kind, () -> types.boxedClass(types.getPrimitiveType(kind)));
            }
        }
    }

    private void add(List<TypeMirror> all, String what, Supplier<TypeMirror> made) {
        line(what, () -> {
            TypeMirror type = made.get();
            all.add(type);
            return type;
        });
    }

    private void type(TypeMirror type) {
        line("type " + type, () -> type.getKind() + " " + type.accept(new Shapes(), "") + type.getAnnotationMirrors()
            + type.getAnnotation(Deprecated.class) + type.getAnnotationsByType(Deprecated.class).length
            + type.equals(null));
        line("  erasure", () -> types.erasure(type));
        line("  element", () -> type.getKind() == TypeKind.INTERSECTION ? "" : types.asElement(type));
        line("  above", () -> types.directSupertypes(type));
        line("  unboxed", () -> types.unboxedType(type));
        line("  captured", () -> types.capture(type).toString().replaceAll("#[0-9]+", ""));
        line("  array", () -> types.getArrayType(type));
        line("  wildcard", () -> types.getWildcardType(type, null));
    }

    private static final class Shapes extends AbstractTypeVisitor9<String, String> {
        @Override
        public String visitPrimitive(PrimitiveType type, String parameter) {
            return "primitive";
        }

        @Override
        public String visitNull(NullType type, String parameter) {
            return "null";
        }

        @Override
        public String visitArray(ArrayType type, String parameter) {
            return "array of " + type.getComponentType();
        }

        @Override
        public String visitDeclared(DeclaredType type, String parameter) {
            return "declared " + type.asElement() + type.getEnclosingType() + type.getTypeArguments();
        }

        @Override
        public String visitError(ErrorType type, String parameter) {
            return "error " + type.asElement() + type.getEnclosingType() + type.getTypeArguments();
        }

        @Override
        public String visitTypeVariable(TypeVariable type, String parameter) {
            return "variable " + type.asElement() + type.getUpperBound() + type.getLowerBound();
        }

        @Override
        public String visitWildcard(WildcardType type, String parameter) {
            return "wildcard " + type.getExtendsBound() + type.getSuperBound();
        }

        @Override
        public String visitExecutable(ExecutableType type, String parameter) {
            return "executable " + type.getTypeVariables() + type.getParameterTypes() + type.getReturnType()
                + type.getThrownTypes() + type.getReceiverType();
        }

        @Override
        public String visitNoType(NoType type, String parameter) {
            return "no type";
        }

        @Override
        public String visitIntersection(IntersectionType type, String parameter) {
            return "intersection of " + type.getBounds();
        }

        @Override
        public String visitUnion(javax.lang.model.type.UnionType type, String parameter) {
            return "union of " + type.getAlternatives();
        }
    }

    private void relations(TypeMirror one, TypeMirror other) {
        line(one + " and " + other, () -> said(() -> types.isSameType(one, other))
            + said(() -> types.isSubtype(one, other)) + said(() -> types.isAssignable(one, other))
            + said(() -> types.contains(one, other)));
    }

    // Annotations.

    private void values(TypeElement calls) {
        for (AnnotationMirror annotation : calls.getAnnotationMirrors()) {
            line("annotation", () -> annotation.getAnnotationType() + " " + annotation.getElementValues());
            elements.getElementValuesWithDefaults(annotation).forEach((method, value) ->
                line("value of " + method, () -> value.accept(new Values(), "") + " " + value));
        }
    }

    private static final class Values extends AbstractAnnotationValueVisitor9<String, String> {
        @Override
        public String visitBoolean(boolean value, String parameter) {
            return "boolean " + value;
        }

        @Override
        public String visitByte(byte value, String parameter) {
            return "byte " + value;
        }

        @Override
        public String visitChar(char value, String parameter) {
            return "char " + value;
        }

        @Override
        public String visitDouble(double value, String parameter) {
            return "double " + value;
        }

        @Override
        public String visitFloat(float value, String parameter) {
            return "float " + value;
        }

        @Override
        public String visitInt(int value, String parameter) {
            return "int " + value;
        }

        @Override
        public String visitLong(long value, String parameter) {
            return "long " + value;
        }

        @Override
        public String visitShort(short value, String parameter) {
            return "short " + value;
        }

        @Override
        public String visitString(String value, String parameter) {
            return "text " + value;
        }

        @Override
        public String visitType(TypeMirror value, String parameter) {
            return "type " + value;
        }

        @Override
        public String visitEnumConstant(VariableElement value, String parameter) {
            return "constant " + value + " of " + value.getEnclosingElement();
        }

        @Override
        public String visitAnnotation(AnnotationMirror value, String parameter) {
            return "annotation " + value;
        }

        @Override
        public String visitArray(List<? extends AnnotationValue> values, String parameter) {
            return values.stream().map(one -> one.accept(this, "")).collect(Collectors.joining(", ", "{", "}"));
        }
    }

    // Files and messages.

    private void files(TypeElement calls) {
        try {
            JavaFileObject source = processingEnv.getFiler().createSourceFile("e.Made", calls);
            line("file", () -> source.getKind() + " " + source.isNameCompatible("Made", JavaFileObject.Kind.SOURCE)
                + source.isNameCompatible("Made", JavaFileObject.Kind.CLASS) + source.getNestingKind()
                + source.getAccessLevel() + source.getName().endsWith("Made.java")
                + source.toUri().getPath().endsWith("/e/Made.java"));
            line("read", () -> read(source));
            try (Writer writer = source.openWriter()) {
                writer.write("package e; class Made {}");
            }
            line("opened again", () -> open(source));
        } catch (IOException e) {
            throw new UncheckedIOException(e);
        }
    }

    private static String read(FileObject file) {
        try {
            return file.getCharContent(true).toString();
        } catch (IOException e) {
            return e.getClass().getSimpleName();
        }
    }

    private static String open(FileObject file) {
        try {
            return String.valueOf(file.openWriter() != null);
        } catch (IOException e) {
            return e.getMessage();
        }
    }

    private void messages(TypeElement calls) {
        AnnotationMirror annotation = calls.getAnnotationMirrors().get(0);
        AnnotationValue value = annotation.getElementValues().values().iterator().next();
        for (Diagnostic.Kind kind : List.of(Diagnostic.Kind.NOTE, Diagnostic.Kind.OTHER, Diagnostic.Kind.WARNING,
                Diagnostic.Kind.MANDATORY_WARNING)) {
            processingEnv.getMessager().printMessage(kind, kind + " alone");
            processingEnv.getMessager().printMessage(kind, kind + " at nothing", null);
            processingEnv.getMessager().printMessage(kind, kind + " at an element", calls);
            processingEnv.getMessager().printMessage(kind, kind + " at an annotation", calls, annotation);
            processingEnv.getMessager().printMessage(kind, kind + " at a value", calls, annotation, value);
        }
    }

    // The file.

    private static String said(Supplier<Object> value) {
        try {
            Object got = value.get();
            return got instanceof Boolean ? (Boolean) got ? "+" : "-" : got.toString();
        } catch (RuntimeException e) {
            return "!";
        }
    }

    private void line(String name, Supplier<Object> value) {
        String text;
        try {
            Object got = value.get();
            text = got instanceof Object[] ? Arrays.toString((Object[]) got) : String.valueOf(got);
        } catch (RuntimeException e) {
            text = e instanceof IllegalArgumentException ? "refused" : e.getClass().getSimpleName();
        }
        out.append(name).append(": ").append(text).append('\n');
    }

    private void write() {
        try (Writer file = processingEnv.getFiler()
                .createResource(StandardLocation.CLASS_OUTPUT, "", "calls.txt").openWriter()) {
            file.write(out.toString());
        } catch (IOException e) {
            throw new UncheckedIOException(e);
        }
    }
}
