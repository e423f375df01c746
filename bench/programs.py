"""Java programs of several files that are made of a seed, for questions.py and program_rows.py.

A program has three packages. Its files declare classes and interfaces, nested ones, type parameters with and without bounds,
fields, and methods that are overloaded, overridden or hidden. What they name they name by its simple name, by its canonical
name, through single imports or imports on demand, static or not, which may go in circles. Names of types and methods are
made once, and a type extends or implements only types that were made before it; so nearly all programs are legal, and
javac says which.
"""
import random

PACKAGES = ("p", "q", "r")

# What stands for the JDK: the members that a program may inherit are none of these.
STUBS = {
    "java.lang.Object": "public class Object {}",
    "java.lang.String": "public final class String implements Comparable<String>, CharSequence {}",
    "java.lang.CharSequence": "public interface CharSequence {}",
    "java.lang.Comparable": "public interface Comparable<T> { int compareTo(T other); }",
    "java.lang.Cloneable": "public interface Cloneable {}",
    "java.lang.Number": "public abstract class Number {}",
    "java.lang.Integer": "public final class Integer extends Number implements Comparable<Integer> {}",
    "java.util.List": "public interface List<E> {}",
    "java.util.Map": "public interface Map<K, V> {}",
}

PRIMITIVES = ("int", "long", "boolean", "char", "double")


class Parameter:
    """A type parameter, with its bound as a kind: none, `number`, `comparable`, or a type of the program."""

    def __init__(self, name, bound):
        self.name, self.bound = name, bound


class Made:
    """A type of the program, or of the JDK where it has no file."""

    def __init__(self, name, package, is_interface, outer, file):
        self.name, self.package, self.is_interface, self.outer, self.file = name, package, is_interface, outer, file
        self.parameters, self.supers, self.members, self.nested, self.methods = [], [], [], [], []
        self.is_abstract, self.is_inner, self.is_public = False, False, True

    def canonical(self):
        return f"{self.outer.canonical() if self.outer else self.package}.{self.name}"

    def outers(self):
        return [self, *(self.outer.outers() if self.outer else [])]


# Types are ("primitive", NAME), ("variable", NAME), ("class", MADE, ARGUMENTS) or ("array", TYPE); arguments also
# ("extends", TYPE), ("super", TYPE) or ("any",).


def put_in(of, given):
    """The type with the types of a mapping in the place of variables."""
    if of[0] == "variable":
        return given.get(of[1], of)
    if of[0] == "class":
        return ("class", of[1], tuple(put_in(each, given) for each in of[2]))
    return (of[0], *(put_in(each, given) if isinstance(each, tuple) else each for each in of[1:]))


def jdk_type(canonical, parameters):
    package, _, name = canonical.rpartition(".")
    made = Made(name, package, False, None, None)
    made.parameters = [Parameter(each, None) for each in parameters]
    return made


STRING, INTEGER, NUMBER = jdk_type("java.lang.String", ""), jdk_type("java.lang.Integer", ""), jdk_type("java.lang.Number", "")
COMPARABLE = jdk_type("java.lang.Comparable", "T")
LIST, MAP = jdk_type("java.util.List", "E"), jdk_type("java.util.Map", "KV")
BY_NAME = {made.canonical(): made for made in (STRING, INTEGER, NUMBER, COMPARABLE, LIST, MAP)}


class File:
    def __init__(self, package, name):
        self.package, self.name, self.tops, self.imports = package, name, [], set()

    def path(self):
        return f"{self.package}/{self.name}.java"


class Method:
    def __init__(self, name, owner, variables, parameters, result, access, is_static):
        self.name, self.owner, self.variables, self.parameters = name, owner, variables, parameters
        self.result, self.access, self.is_static = result, access, is_static


class Program:
    """A program of at least so many lines. In a simple one types have few members, and there are no inner classes and no raw supertypes."""

    def __init__(self, seed, lines, is_simple=False):
        self.random, self.is_simple = random.Random(seed), is_simple
        self.types, self.files, self.count = [], [], 0
        while sum(text.count("\n") for text in self.texts().values()) < lines:
            self.add_file()
        self.add_imports()

    def chance(self, share):
        return self.random.random() < share

    def new_name(self, letter):
        self.count += 1
        return f"{letter}{self.count}"

    # ---- types

    def argument(self, parameter, scope, deep):
        """A type that the parameter's bound allows."""
        if parameter.bound == "number":
            return ("class", INTEGER, ())
        if parameter.bound == "comparable":
            return ("class", self.random.choice((STRING, INTEGER)), ())
        if parameter.bound is not None:
            return parameter.bound
        return self.reference(scope, deep + 1)

    def wildcard(self, parameter, argument):
        if parameter.bound is not None:
            return ("any",) if self.chance(0.2) else argument
        drawn = self.random.random()
        if drawn < 0.15:
            return ("any",)
        if drawn < 0.3:
            return ("extends", argument)
        return ("super", argument) if drawn < 0.4 else argument

    def class_type(self, made, scope, deep, has_wildcards):
        arguments = []
        for parameter in made.parameters:
            argument = self.argument(parameter, scope, deep)
            arguments.append(self.wildcard(parameter, argument) if has_wildcards else argument)
        return ("class", made, tuple(arguments))

    def is_seen(self, made, scope):
        """Whether a type may be named there: an inner class within its outer class alone, and what isn't public in its file."""
        if any(each.is_inner for each in made.outers()):
            return made.outer in scope.outers()
        return all(each.is_public for each in made.outers()) or made.file is scope.file

    def reference(self, scope, deep=0):
        """A class type, an array or a variable in the scope of a type."""
        drawn = self.random.random()
        if drawn < 0.15 and scope.parameters:
            return ("variable", self.random.choice(scope.parameters).name)
        if drawn < 0.2:
            return ("array", self.reference(scope, deep + 1))
        if drawn < 0.4 or deep > 2:
            return ("class", self.random.choice((STRING, INTEGER, NUMBER)), ())
        if drawn < 0.5:
            return self.class_type(self.random.choice((LIST, MAP)), scope, deep, True)
        seen = [each for each in self.types if self.is_seen(each, scope)]
        if not seen:
            return ("class", STRING, ())
        made = self.random.choice(seen)
        if made.parameters and self.chance(0.08):
            return ("class", made, ())
        return self.class_type(made, scope, deep, True)

    def any_type(self, scope):
        return ("primitive", self.random.choice(PRIMITIVES)) if self.chance(0.2) else self.reference(scope)

    # ---- headers

    def above(self, made):
        """All supertypes of a type, with the arguments that they have there; None for those of a raw type."""
        found = {}
        for _, above, arguments in made.supers:
            is_raw = len(arguments) < len(above.parameters)
            given = {each.name: argument for each, argument in zip(above.parameters, arguments)}
            further = {above: None if is_raw else arguments}
            for each, inner in self.above(above).items():
                further[each] = None if is_raw or inner is None else tuple(put_in(one, given) for one in inner)
            for each, inner in further.items():
                if found.setdefault(each, inner) != inner:
                    return None
        return found

    def add_super(self, made, above, scope):
        arguments = self.class_type(above, scope, 0, False)[2]
        if not self.is_simple and above.parameters and self.chance(0.06):
            arguments = ()
        made.supers.append(("class", above, arguments))
        if self.above(made) is None:
            made.supers.pop()

    def add_header(self, made):
        for _ in range(self.random.choice((0, 0, 1, 1, 2))):
            bound = self.random.choice((None, None, None, "number", "comparable"))
            interfaces = [each for each in self.types if each.is_interface and not each.parameters and self.is_seen(each, made)]
            if interfaces and self.chance(0.2):
                bound = ("class", self.random.choice(interfaces), ())
            made.parameters.append(Parameter(self.new_name("T"), bound))
        seen = [each for each in self.types if self.is_seen(each, made) and each is not made and not any(one.is_inner for one in each.outers())]
        classes = [each for each in seen if not each.is_interface]
        interfaces = [each for each in seen if each.is_interface]
        if classes and not made.is_interface and self.chance(0.6):
            self.add_super(made, self.random.choice(classes), made)
        for above in self.random.sample(interfaces, min(len(interfaces), self.random.choice((0, 1, 1, 2)))):
            if above not in [each[1] for each in made.supers]:
                self.add_super(made, above, made)

    # ---- members

    def access(self, made):
        return "public" if made.is_interface else self.random.choice(("public", "public", "public", "protected", "", "private"))

    def add_field(self, made):
        is_static = made.is_interface or self.chance(0.2) and not made.is_inner
        scope = made
        if is_static:
            scope = Made(made.name, made.package, False, made.outer, made.file)
        of = self.any_type(scope)
        name = self.new_name("f")
        # A field of the same name as one above hides it.
        above = [one[1] for each in self.above(made) for one in each.members if one[0] == "field"]
        if above and self.chance(0.3):
            name = self.random.choice(above)
        if any(one[0] == "field" and one[1] == name for one in made.members):
            return
        made.members.append(("field", name, of, "" if made.is_interface else self.access(made), is_static))

    def add_method(self, made, method):
        made.methods.append(method)
        made.members.append(("method", method))

    def add_new_methods(self, made):
        """Overloads of one name, which differ in the number of their parameters."""
        name, is_static = self.new_name("m"), not made.is_inner and not (self.is_simple and made.is_interface) and self.chance(0.15)
        access = self.access(made)
        for count in range(self.random.choice((1, 1, 2, 3))):
            scope = Made(made.name, made.package, False, made.outer, made.file)
            scope.parameters = [] if is_static else list(made.parameters)
            variables = []
            if self.chance(0.2):
                variables = [Parameter(self.new_name("U"), self.random.choice((None, None, "number", "comparable")))]
                scope.parameters += variables
            parameters = [self.any_type(scope) for _ in range(count)]
            result = ("primitive", "void") if self.chance(0.3) else self.any_type(scope)
            self.add_method(made, Method(name, made, variables, parameters, result, access, is_static))

    def add_overriding(self, made):
        """A method of a supertype, with the types that it has here."""
        own = {each.name for each in made.methods}
        found = [(each, above, arguments) for above, arguments in self.above(made).items() if arguments is not None
                 for each in above.methods if each.access in ("public", "protected") and each.name not in own
                 and not (each.is_static and (above.is_interface or made.is_inner))]
        if not found:
            return
        method, above, arguments = self.random.choice(found)
        given = {each.name: argument for each, argument in zip(above.parameters, arguments)}
        parameters = [put_in(each, given) for each in method.parameters]
        result = put_in(method.result, given)
        self.add_method(made, Method(method.name, made, method.variables, parameters, result, method.access, method.is_static))

    def some(self, most):
        """A small number."""
        return self.random.randint(0, (most + 1) // 2 if self.is_simple else most)

    def add_members(self, made):
        for _ in range(self.some(3)):
            self.add_field(made)
        for _ in range(self.some(2)):
            self.add_new_methods(made)
        for _ in range(self.some(3)):
            self.add_overriding(made)

    # ---- files

    def add_type(self, package, outer, file):
        is_interface = self.chance(0.4)
        made = Made(self.new_name("I" if is_interface else "C"), package, is_interface, outer, file)
        if outer is not None and not is_interface and not outer.is_interface and not self.is_simple:
            made.is_inner = self.chance(0.15)
        self.add_header(made)
        self.types.append(made)
        self.add_members(made)
        if outer is None or outer.outer is None and not self.is_simple:
            for _ in range(max(0, self.some(3) - 1)):
                if not made.is_inner:
                    made.nested.append(self.add_type(package, made, file))
        made.is_abstract = not made.is_interface
        return made

    def add_file(self):
        package = self.random.choice(PACKAGES)
        file = File(package, None)
        self.files.append(file)
        file.tops.append(self.add_type(package, None, file))
        file.name = file.tops[0].name
        if self.chance(0.2):
            beside = self.add_type(package, None, file)
            beside.is_public = False
            file.tops.append(beside)

    def add_imports(self):
        """Imports of files by each other."""
        for file in self.files:
            for other in self.random.sample(self.files, min(len(self.files), self.random.choice((1, 2, 3)))):
                top = other.tops[0]
                if other is file:
                    continue
                form = self.random.choice(("single", "package", "static", "static", "nested"))
                if form == "single":
                    file.imports.add(top.canonical())
                elif form == "package":
                    file.imports.add(f"{top.package}.*")
                elif form == "static":
                    file.imports.add(f"static {top.canonical()}.*")
                elif any(not each.is_inner for each in top.nested):
                    nested = self.random.choice([each for each in top.nested if not each.is_inner])
                    file.imports.add(self.random.choice((f"static {nested.canonical()}", f"static {nested.canonical()}.*", nested.canonical())))

    # ---- texts

    def name_of(self, made, scope):
        """The shortest name that means the type within another one, by the imports of its file."""
        file = scope.file
        if made.file is None:
            return made.name if made.package == "java.lang" else made.canonical()
        imports = file.imports
        if made.outer is None:
            is_near = made.package == file.package or made.canonical() in imports or f"{made.package}.*" in imports
            return made.name if is_near else made.canonical()
        within = scope.outers() if scope.outer is None or scope.is_body else scope.outers()[1:]
        reached = [each for one in within for each in (one, *self.above(one))] if scope.is_body else list(within)
        if made.outer in reached:
            return made.name
        canonical = made.canonical()
        if canonical in imports or f"static {canonical}" in imports or f"static {made.outer.canonical()}.*" in imports:
            return made.name
        return f"{self.name_of(made.outer, scope)}.{made.name}"

    def word(self, of, scope):
        form = of[0]
        if form in ("primitive", "variable"):
            return of[1]
        if form == "array":
            return self.word(of[1], scope) + "[]"
        if form == "any":
            return "?"
        if form in ("extends", "super"):
            return f"? {form} {self.word(of[1], scope)}"
        _, made, arguments = of
        name = self.name_of(made, scope)
        return f"{name}<{', '.join(self.word(each, scope) for each in arguments)}>" if arguments else name

    def parameter_words(self, parameters, scope):
        words = []
        for each in parameters:
            if each.bound is None:
                words.append(each.name)
            elif each.bound == "number":
                words.append(f"{each.name} extends Number")
            elif each.bound == "comparable":
                words.append(f"{each.name} extends Comparable<{each.name}>")
            else:
                words.append(f"{each.name} extends {self.word(each.bound, scope)}")
        return f"<{', '.join(words)}>" if words else ""

    def method_line(self, method, scope, made):
        variables = self.parameter_words(method.variables, scope)
        parameters = ", ".join(f"{self.word(each, scope)} a{number}" for number, each in enumerate(method.parameters))
        head = f"{variables + ' ' if variables else ''}{self.word(method.result, scope)} {method.name}({parameters})"
        if made.is_interface:
            return f"static {head} {{ throw null; }}" if method.is_static else f"{head};"
        front = f"{method.access} " if method.access else ""
        return f"{front}{'static ' if method.is_static else ''}{head} {{ throw null; }}"

    def member_line(self, member, scope, made):
        if member[0] == "method":
            return self.method_line(member[1], scope, made)
        _, name, of, access, is_static = member
        value = ""
        if made.is_interface:
            value = " = " + ({"boolean": "false"}.get(of[1], "0") if of[0] == "primitive" else "null")
        front = f"{access} " if access else ""
        return f"{front}{'static ' if is_static and not made.is_interface else ''}{self.word(of, scope)} {name}{value};"

    def type_lines(self, made, indent):
        header, body = Scope(made, False), Scope(made, True)
        front = "public " if made.is_public and made.outer is None or made.outer and not made.outer.is_interface else ""
        if made.outer is not None and not made.is_inner and not made.is_interface and not made.outer.is_interface:
            front += "static "
        if made.is_abstract:
            front += "abstract "
        line = f"{front}{'interface' if made.is_interface else 'class'} {made.name}{self.parameter_words(made.parameters, header)}"
        classes = [self.word(each, header) for each in made.supers if not each[1].is_interface]
        interfaces = [self.word(each, header) for each in made.supers if each[1].is_interface]
        if classes:
            line += f" extends {classes[0]}"
        if interfaces:
            line += f" {'extends' if made.is_interface else 'implements'} {', '.join(interfaces)}"
        lines = [f"{indent}{line} {{"]
        lines += [f"{indent}    {self.member_line(each, body, made)}" for each in made.members]
        for each in made.nested:
            lines += self.type_lines(each, indent + "    ")
        return [*lines, f"{indent}}}"]

    def texts(self):
        """The text of each file by its path."""
        texts = {}
        for file in self.files:
            lines = [f"package {file.package};", *(f"import {each};" for each in sorted(file.imports))]
            for top in file.tops:
                lines += ["", *self.type_lines(top, "")]
            texts[file.path()] = "\n".join(lines) + "\n"
        return texts


class Scope:
    """Where a name stands: in the header of a type, or in its body."""

    def __init__(self, made, is_body):
        self.made, self.is_body, self.file, self.outer = made, is_body, made.file, made.outer

    def outers(self):
        return self.made.outers()
