package dinxobhe.stubs;

import java.util.List;
import java.util.stream.Collectors;
import javax.lang.model.element.AnnotationMirror;
import javax.lang.model.element.AnnotationValue;
import javax.lang.model.element.Element;
import javax.lang.model.element.TypeElement;
import javax.lang.model.element.VariableElement;
import javax.lang.model.type.TypeMirror;
import javax.lang.model.util.Types;

/** Annotations and their values as Java texts. */
final class AnnotationTexts {
    /** How javac prints a value that it cannot read, such as a constant of an absent enum. */
    private static final String UNREADABLE = "<error>";

    private final TypeTexts texts;
    private final Types types;
    private final Notes notes;

    AnnotationTexts(TypeTexts texts, Types types, Notes notes) {
        this.texts = texts;
        this.types = types;
        this.notes = notes;
    }

    /** The annotations of an element, each with a space after it. */
    String of(Element element) {
        StringBuilder text = new StringBuilder();
        for (AnnotationMirror annotation : element.getAnnotationMirrors()) {
            try {
                text.append(of(annotation)).append(' ');
            } catch (Unwritable e) {
                notes.add(Notes.Kind.ANNOTATION, element);
            }
        }
        return text.toString();
    }

    private String of(AnnotationMirror annotation) {
        String name = texts.name((TypeElement) annotation.getAnnotationType().asElement());
        if (annotation.getElementValues().isEmpty()) {
            return "@" + name;
        }
        return annotation.getElementValues().entrySet().stream()
            .map(e -> JavaNames.checked(e.getKey().getSimpleName()) + " = " + value(e.getValue()))
            .collect(Collectors.joining(", ", "@" + name + "(", ")"));
    }

    String value(AnnotationValue value) {
        if (value.toString().equals(UNREADABLE)) {
            throw new Unwritable("a value that cannot be read");
        }
        Object object = value.getValue();
        if (object instanceof TypeMirror) {
            return texts.of(types.erasure((TypeMirror) object)) + ".class";
        }
        if (object instanceof VariableElement) {
            VariableElement constant = (VariableElement) object;
            return texts.name((TypeElement) constant.getEnclosingElement()) + "."
                + JavaNames.checked(constant.getSimpleName());
        }
        if (object instanceof AnnotationMirror) {
            return of((AnnotationMirror) object);
        }
        if (object instanceof List) {
            return ((List<?>) object).stream().map(one -> value((AnnotationValue) one))
                .collect(Collectors.joining(", ", "{", "}"));
        }
        return Literals.of(object);
    }
}
