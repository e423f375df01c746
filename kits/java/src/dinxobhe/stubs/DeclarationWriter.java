package dinxobhe.stubs;

import java.util.ArrayList;
import java.util.List;
import java.util.Set;
import java.util.stream.Collectors;
import javax.lang.model.element.AnnotationValue;
import javax.lang.model.element.Element;
import javax.lang.model.element.ElementKind;
import javax.lang.model.element.ExecutableElement;
import javax.lang.model.element.Modifier;
import javax.lang.model.element.PackageElement;
import javax.lang.model.element.TypeElement;
import javax.lang.model.element.TypeParameterElement;
import javax.lang.model.element.VariableElement;
import javax.lang.model.type.ArrayType;
import javax.lang.model.type.TypeKind;
import javax.lang.model.type.TypeMirror;
import javax.lang.model.util.ElementFilter;

/** Declarations as Java texts: with full names, without bodies and modifiers that the language adds. */
final class DeclarationWriter {
    private static final String INDENT = "  ";

    private final Visibility visibility;
    private final TypeTexts texts;
    private final AnnotationTexts annotations;
    private final Notes notes;

    DeclarationWriter(Visibility visibility, TypeTexts texts, AnnotationTexts annotations, Notes notes) {
        this.visibility = visibility;
        this.texts = texts;
        this.annotations = annotations;
        this.notes = notes;
    }

    /** The file of a top-level type. */
    String file(TypeElement type, PackageElement of) {
        StringBuilder text = new StringBuilder();
        if (!of.isUnnamed()) {
            text.append("package ").append(JavaNames.checked(of.getQualifiedName())).append(";\n\n");
        }
        write(type, "", text);
        return text.toString();
    }

    /** The file of a package; nothing where it has no annotation. */
    String packageFile(PackageElement of) {
        String written = annotations.of(of);
        String name = JavaNames.checked(of.getQualifiedName());
        return written.isEmpty() ? "" : written + "package " + name + ";\n";
    }

    private void write(TypeElement type, String indent, StringBuilder text) {
        String head = head(type);
        text.append(indent).append(head).append(" {\n");
        if (type.getKind() == ElementKind.ENUM) {
            text.append(indent).append(INDENT).append(constants(type)).append(";\n");
        }
        List<ExecutableElement> constructors = constructors(type);
        // A class of which no constructor is written gets one, since the language would add a public one.
        boolean isHidden = isClass(type) && constructors.isEmpty();
        String hidden = indent + INDENT + "private " + type.getSimpleName() + "() {}\n";
        for (Element member : type.getEnclosedElements()) {
            try {
                if (isHidden && member.getKind() == ElementKind.CONSTRUCTOR) {
                    text.append(hidden);
                    isHidden = false;
                } else if (Kinds.isType(member)) {
                    if (visibility.isShown(member)) {
                        write((TypeElement) member, indent + INDENT, text);
                    }
                } else if (isWritten(member, constructors)) {
                    String written = member(member);
                    text.append(indent).append(INDENT).append(written).append('\n');
                }
            } catch (Unwritable e) {
                notes.add(Notes.Kind.LEFT_OUT, member);
            }
        }
        text.append(isHidden ? hidden : "").append(indent).append("}\n");
    }

    private static boolean isClass(TypeElement type) {
        return type.getKind().isClass() && type.getKind() != ElementKind.ENUM;
    }

    // Types.

    private String head(TypeElement type) {
        if (Kinds.isRecord(type)) {
            notes.add(Notes.Kind.RECORD, type);
        }
        String name = JavaNames.checked(type.getSimpleName());
        return annotations.of(type) + modifiers(type) + keyword(type) + " " + name
            + typeParameters(type.getTypeParameters()) + superclass(type) + interfaces(type);
    }

    private static String keyword(TypeElement type) {
        switch (type.getKind()) {
            case ENUM:
                return "enum";
            case INTERFACE:
                return "interface";
            case ANNOTATION_TYPE:
                return "@interface";
            default:
                return "class";
        }
    }

    private String superclass(TypeElement type) {
        TypeMirror superclass = type.getSuperclass();
        if (!isClass(type) || superclass.getKind() == TypeKind.NONE || Kinds.isObject(superclass)) {
            return "";
        }
        return " extends " + texts.of(superclass);
    }

    private String interfaces(TypeElement type) {
        if (type.getKind() == ElementKind.ANNOTATION_TYPE || type.getInterfaces().isEmpty()) {
            return "";
        }
        return (type.getKind().isInterface() ? " extends " : " implements ") + texts.of(type.getInterfaces());
    }

    /** The constants of an enum. One has a body where the enum is not final, since it would be without. */
    private String constants(TypeElement type) {
        List<String> written = new ArrayList<>();
        String body = type.getModifiers().contains(Modifier.FINAL) ? "" : " {}";
        for (VariableElement constant : ElementFilter.fieldsIn(type.getEnclosedElements())) {
            if (constant.getKind() == ElementKind.ENUM_CONSTANT) {
                try {
                    String name = JavaNames.checked(constant.getSimpleName());
                    written.add(annotations.of(constant) + name + body);
                    body = "";
                } catch (Unwritable e) {
                    notes.add(Notes.Kind.LEFT_OUT, constant);
                }
            }
        }
        return String.join(", ", written);
    }

    /** The constructors that are written: those that are shown, or else those of package access. */
    private List<ExecutableElement> constructors(TypeElement type) {
        if (!isClass(type)) {
            return List.of();
        }
        List<ExecutableElement> all = ElementFilter.constructorsIn(type.getEnclosedElements());
        all.removeIf(one -> one.getModifiers().contains(Modifier.PRIVATE));
        List<ExecutableElement> shown = all.stream().filter(visibility::isShown).collect(Collectors.toList());
        return shown.isEmpty() ? all : shown;
    }

    // Members.

    private boolean isWritten(Element member, List<ExecutableElement> constructors) {
        switch (member.getKind()) {
            case FIELD:
                return visibility.isShown(member);
            case METHOD:
                return visibility.isShown(member) && !Kinds.isOfEveryEnum((ExecutableElement) member);
            case CONSTRUCTOR:
                return constructors.contains(member);
            default:
                return false;
        }
    }

    private String member(Element member) {
        return member.getKind() == ElementKind.FIELD
            ? field((VariableElement) member) : executable((ExecutableElement) member);
    }

    private String field(VariableElement field) {
        return annotations.of(field) + modifiers(field) + texts.of(field.asType()) + " "
            + JavaNames.checked(field.getSimpleName()) + initialiser(field) + ";";
    }

    private String initialiser(VariableElement field) {
        if (field.getConstantValue() != null) {
            try {
                return " = " + Literals.of(field.getConstantValue());
            } catch (Unwritable e) {
                notes.add(Notes.Kind.CONSTANT, field);
            }
        }
        // A field of an interface has to have one, which must not be a constant expression.
        return field.getEnclosingElement().getKind().isInterface() ? " = " + noConstant(field.asType()) : "";
    }

    private static String noConstant(TypeMirror type) {
        switch (type.getKind()) {
            case BOOLEAN:
                return "(Boolean) null";
            case BYTE:
                return "(Byte) null";
            case SHORT:
                return "(Short) null";
            case INT:
                return "(Integer) null";
            case LONG:
                return "(Long) null";
            case CHAR:
                return "(Character) null";
            case FLOAT:
                return "(Float) null";
            case DOUBLE:
                return "(Double) null";
            default:
                return "(null)";
        }
    }

    private String executable(ExecutableElement executable) {
        boolean isConstructor = executable.getKind() == ElementKind.CONSTRUCTOR;
        String typeParameters = typeParameters(executable.getTypeParameters());
        String name = isConstructor ? executable.getEnclosingElement().getSimpleName().toString()
            : texts.of(executable.getReturnType()) + " " + JavaNames.checked(executable.getSimpleName());
        return annotations.of(executable) + modifiers(executable)
            + typeParameters + (typeParameters.isEmpty() ? "" : " ")
            + name + "(" + parameters(executable) + ")"
            + thrown(executable) + defaultValue(executable) + (isConstructor ? " {}" : ";");
    }

    private String thrown(ExecutableElement executable) {
        List<? extends TypeMirror> types = executable.getThrownTypes();
        return types.isEmpty() ? "" : " throws " + texts.of(types);
    }

    private String defaultValue(ExecutableElement method) {
        AnnotationValue value = method.getDefaultValue();
        return value == null ? "" : " default " + annotations.value(value);
    }

    private String parameters(ExecutableElement executable) {
        List<String> written = new ArrayList<>();
        int last = executable.getParameters().size() - 1;
        for (VariableElement parameter : executable.getParameters()) {
            TypeMirror type = parameter.asType();
            String of = executable.isVarArgs() && written.size() == last
                ? texts.of(((ArrayType) type).getComponentType()) + "..." : texts.of(type);
            String name = parameter.getSimpleName().toString();
            written.add(annotations.of(parameter) + modifiers(parameter) + of + " "
                + (JavaNames.isIdentifier(name) ? name : "arg" + written.size()));
        }
        return String.join(", ", written);
    }

    // What types and members have in common.

    private String typeParameters(List<? extends TypeParameterElement> parameters) {
        if (parameters.isEmpty()) {
            return "";
        }
        return parameters.stream()
            .map(one -> annotations.of(one) + JavaNames.checked(one.getSimpleName()) + texts.bounds(one))
            .collect(Collectors.joining(", ", "<", ">"));
    }

    /** The modifiers that have to be written, each with a space after it; none of later releases. */
    private String modifiers(Element element) {
        Set<Modifier> implied = Kinds.impliedModifiers(element);
        StringBuilder text = new StringBuilder();
        for (Modifier modifier : element.getModifiers()) {
            if (modifier.name().equals("SEALED")) {
                notes.add(Notes.Kind.SEALED, element);
            } else if (!modifier.name().equals("NON_SEALED") && !implied.contains(modifier)) {
                text.append(modifier).append(' ');
            }
        }
        return text.toString();
    }
}
