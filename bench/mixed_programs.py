"""Java programs with what those of programs.py and annotations.py lack, made of a seed, for replies.py.

A program has two packages, each with a file `package-info.java`. It declares an enum with and without bodies, annotation interfaces, inner
classes of generic ones that are named in each form, raw ones too, interfaces with methods of each kind, constructors, methods with type
parameters, variable arity and exceptions, fields of one declaration, modifiers, and doc comments of many forms. What a member is, a seed
chooses.
"""
import random
import re

DOCS = (
    "", "", "", "/** One line. */", "/**Close.*/", "/***/", "/** */", "/**\n{0} * Some lines,\n{0} * of text.\n{0} */", "/**\n{0}   No stars,\n{0}\tand a tab.\n{0}*/",
    "/** First\n{0} ** two stars\n{0} *   indented\n{0} **/", "/**\n{0} * @param <T> a tag\n{0} * @return {{@code x}}\n{0} *\n{0} */", "/*** three */", "/* none */",
    "/** é \\u0041 */",
)
PLAIN = ("String", "Integer", "Number", "Kind", "Object", "Runnable", "int[]", "String[][]", "Shape", "Box", "Outer.Nested", "Outer.Inner")
GENERIC = ("List<A>", "Map<A, R>", "Map.Entry<R, ?>", "Box<A>", "Outer<R, String>.Inner", "Outer<R, String>.Deep<R>", "Outer.Nested<R>", "Comparable<R>[]")
MODIFIERS_OF_FIELDS = ("", "public ", "protected ", "private ", "static ", "public static final ", "transient ", "volatile ", "private static ")
MODIFIERS_OF_METHODS = ("", "public ", "protected ", "private ", "static ", "final ", "synchronized ", "public final ", "public static ", "strictfp ")


class Mixed:
    """A program of seven files."""

    def __init__(self, seed):
        self.random, self.count = random.Random(f"mixed {seed}"), 0

    def name(self, letter):
        self.count += 1
        return f"{letter}{self.count}"

    def pick(self, *choices):
        return self.random.choice(choices)

    def doc(self, indent):
        text = self.random.choice(DOCS).format(indent)
        return f"{indent}{text}\n" if text else ""

    def note(self):
        return self.pick("", "", "", "@Mark ", "@Mark(3) ", '@Mark.Named(name = "x", kinds = {Kind.LOW, Kind.HIGH}) ', "@Deprecated ", "@Mark @Deprecated ")

    # ---- types

    def filled(self, template, deep):
        """The type of a template, in which `R` is a reference type and `A` a type argument."""
        return re.sub(r"\b[RA]\b", lambda found: (self.reference if found.group() == "R" else self.argument)(deep + 1), template)

    def argument(self, deep=0):
        return self.filled(self.pick("?", "? extends R", "? super R", "? extends Number[]", "R", "R", "R", "R"), deep)

    def reference(self, deep=0):
        return self.filled(self.random.choice(PLAIN if deep > 1 or self.random.random() < 0.5 else GENERIC), deep)

    def any_type(self):
        return self.pick("int", "long", "boolean", "double", "char", "byte", "short", "float") if self.random.random() < 0.2 else self.reference()

    # ---- members

    def field(self, indent):
        declared = self.pick("{0};", "{0}, {1}[];", "{0}[];", "{0}, {1}, {2};").format(self.name("f"), self.name("f"), self.name("f"))
        front = self.random.choice(MODIFIERS_OF_FIELDS)
        if "final" in front:
            declared = f"{self.name('F')} = {self.pick('null', 'null')};"
            return f"{self.doc(indent)}{indent}{self.note()}{front}{self.reference()} {declared}\n"
        return f"{self.doc(indent)}{indent}{self.note()}{front}{self.any_type()} {declared}\n"

    def constant(self, indent):
        of, value = self.pick(("int", "5"), ("long", "7L"), ("String", '"a" + "b"'), ("char", "'c'"), ("boolean", "true"), ("double", "1.5"), ("int", "1 + 2"),
                              ("byte", "3"), ("float", "2f"))
        return f"{self.doc(indent)}{indent}{self.pick('static final ', 'public static final ', 'final ')}{of} {self.name('K')} = {value};\n"

    def parameters(self):
        given = [f"{self.pick('', '', 'final ', '@Mark ')}{self.any_type()} {self.name('a')}" for _ in range(self.random.randint(0, 3))]
        if self.random.random() < 0.2:
            given.append(f"{self.any_type()}... {self.name('a')}")
        return ", ".join(given)

    def variables(self):
        return self.pick("", "", "", "<T> ", "<T extends Number> ", "<T extends Comparable<T>> ", "<T extends Number & Comparable<? super T>> ", "<T, U extends T> ",
                         "<T extends Runnable & java.io.Serializable> ")

    def method(self, indent):
        result = self.pick("void", "int", self.reference(), self.reference())
        thrown = self.pick("", "", "", " throws Exception", " throws java.io.IOException, RuntimeException")
        front = self.random.choice(MODIFIERS_OF_METHODS)
        return (f"{self.doc(indent)}{indent}{self.note()}{front}{self.variables()}{result} {self.name('m')}({self.parameters()}){self.pick('', '', '[]') if result != 'void' else ''}"
                f"{thrown} {{ throw null; }}\n")

    def constructor(self, indent, name):
        front = f"{self.doc(indent)}{indent}{self.note()}{self.pick('', 'public ', 'protected ', 'private ')}{self.variables()}"
        parameters = ", ".join(["int[][][] first", *filter(None, [self.parameters()])])
        return f"{front}{name}({parameters}){self.pick('', ' throws Exception')} {{ }}\n"

    def members(self, indent, most=5):
        made = [self.pick(self.field, self.method, self.method, self.constant)(indent) for _ in range(self.random.randint(1, most))]
        return "".join(made)

    # ---- files

    def enum_text(self):
        bodies = self.random.random() < 0.5
        body = f" {{ @Override public String label() {{ return null; }} {self.members('        ', 1).strip()} }}" if bodies else ""
        constants = f"{self.doc('    ')}    {self.note()}LOW(1){body},\n{self.doc('    ')}    HIGH(2), NONE;\n"
        others = f"    {self.pick('', 'private ')}Kind(int... numbers) {{ }}\n    public String label() {{ return null; }}\n{self.members('    ')}"
        plain = f"{self.note()}enum Plain {{ A, B{self.pick('', ',', ';')} }}"
        return (f"package s;\n{self.imports('s')}{self.doc('')}{self.note()}public enum Kind implements Shape {{\n{constants};\n{others}"
                f"    {self.pick('', 'static ', 'private ')}{plain}\n}}\n")

    def imports(self, package):
        names = {"s": "import t.*;\n", "t": "import s.*;\nimport static s.Kind.*;\n"}
        return f"import java.util.List;\nimport java.util.Map;\n{names[package]}"

    def annotations_text(self):
        front = self.pick("", "@java.lang.annotation.Inherited ", "@java.lang.annotation.Documented ")
        elements = f"int value() default {self.pick('1', '-2', 'MOST')};\n    int MOST = 9;\n    {self.doc('    ').strip() or '// nothing'}\n    String[] texts() default {{}};\n    Class<?> of() default {self.pick('Object.class', 'int.class', 'String[].class')};"
        nested = f"    {self.pick('', 'static ')}@interface Within {{ Mark[] value() default {{@Mark, @Mark(2)}}; }}\n"
        named = (f"    @interface Named {{\n        String name();\n        Kind[] kinds() default Kind.LOW;\n        Mark mark() default @Mark(7);\n"
                 f"        {self.pick('long', 'double', 'byte', 'char', 'float')} number() default 65;\n    }}\n")
        return f"package s;\n{self.doc('')}{front}public @interface Mark {{\n    {elements}\n{nested}{named}}}\n"

    def shape_text(self):
        lines = [f"    {self.pick('', 'public ')}String label();\n"]
        for _ in range(self.random.randint(1, 4)):
            lines.append(self.pick(
                f"    default {self.reference()} {self.name('m')}({self.parameters()}) {{ return null; }}\n", f"    static void {self.name('m')}({self.parameters()}) {{ }}\n",
                f"    private void {self.name('m')}() {{ }}\n",
                f"    {self.reference()} {self.name('C')} = null;\n", f"    class {self.name('N')} {{ }}\n", f"    enum {self.name('E')} {{ X }}\n"))
        return f"package s;\n{self.imports('s')}{self.doc('')}{self.note()}public interface Shape {{\n{''.join(lines)}}}\n{self.other_text()}"

    def other_text(self):
        methods = "".join(f"    {self.doc('    ').strip()}\n    {self.variables()}{self.reference()} {self.name('m')}({self.parameters()});\n" for _ in range(3))
        return f"interface Other<O extends Shape> extends Shape, Comparable<Other<?>> {{\n{methods}    O other(O... from);\n}}\n"

    def outer_text(self):
        nested = f"    public static class Nested<E> {{\n{self.members('        ', 3)}    }}\n"
        inner = f"    {self.note()}public class Inner {{\n        A of;\n        Deep<A> deep;\n{self.members('        ', 3)}    }}\n"
        deep = f"    public class Deep<D> extends Inner {{\n        Map<A, D> map;\n        Outer<D, B>.Inner other;\n        {self.constructor('', 'Deep').strip()}\n    }}\n"
        inherited = "    protected Inner back;\n    List<? extends Nested<? super A>> many;\n    Nested raw;\n    A[] items(B... more) { return null; }\n"
        parts = [nested, inner, deep, inherited, self.members("    "), self.constructor("    ", "Outer"), "    protected Outer() { }\n"]
        self.random.shuffle(parts)
        return f"package t;\n{self.imports('t')}{self.doc('')}{self.note()}public {self.pick('', 'abstract ')}class Outer<A, B extends {self.pick('Object', 'CharSequence')}> {{\n{''.join(parts)}}}\n"

    def boxes_text(self):
        box = f"    E item;\n    void put(E other) {{ }}\n    <F extends E> Box<F> map(Box<? super E> from) {{ return null; }}\n    static <G> G make() {{ return null; }}\n{self.members('    ')}"
        texts = "    @Override void put(String other) { }\n    String item;\n"
        side = f"    @Override public String label() {{ return null; }}\n{self.members('    ')}"
        return (f"package t;\n{self.imports('t')}{self.doc('')}{self.note()}public class Box<E> {{\n{box}}}\n{self.note()}class Texts extends Box<String> implements Comparable<Texts> {{\n"
                f"{texts}    public int compareTo(Texts other) {{ return 0; }}\n}}\nclass Bare extends Box {{ {self.members('', 1).strip()} }}\n"
                f"abstract class Side extends Outer<Side, String> implements Shape {{\n    Side() throws Exception {{ }}\n{side}}}\nfinal class Lone<L extends Box<L>> {{ L self; }}\n")

    def info_text(self, package):
        note = self.pick("", "@s.Mark\n", "@Deprecated\n")
        doc = self.doc("")
        return f"{doc}{note}package {package};\n"

    def texts(self):
        """The text of each file by its path."""
        return {"s/Kind.java": self.enum_text(), "s/Mark.java": self.annotations_text(), "s/Shape.java": self.shape_text(), "t/Outer.java": self.outer_text(),
                "t/Box.java": self.boxes_text(), "s/package-info.java": self.info_text("s"), "t/package-info.java": self.info_text("t")}
