"""The differences between two replies to a question, in the words of the table `answer_cases`, each by the sentence that decides it.

A difference is a key of SENTENCES, whose sentence stands in docs/DECISIONS.md, or None. The replies are those of the program and of
javac, which replies.py asks.
"""
import re
import sys
import urllib.parse

import annotations

SENTENCES = {
    **annotations.SENTENCES,
    "order": "Inherited annotations come behind the written ones, the nearest first, and those of one superclass in the order in which it has them.",
    "enum": "An enum is never `abstract`, which no enum may be (JLS 8.9), also where its constants have to have a method (javac adds `abstract` there, and `sealed` where a "
            "constant has a body).",
    "module": "A package encloses its types, and nothing encloses a package.",
    "enclosed": "What an element encloses are, of a type, its members in their order, with what the language adds behind what is written (javac has the "
                "default constructor, `values` and `valueOf` in front), and of a package its top-level types of sources and stubs, ascending by the bytes of their names.",
    "blanks": "The blanks behind `/**` are kept: `/** An item. */` gives ` An item. ` (the JDK drops the first blank).",
    "line end": "So is a line end there, as JSR 269 has it (the JDK drops it).",
    "marker": "The marker of a doc comment is `/**` alone: of `/*** x */` the text is `* x `.",
    "lines": "The text of a doc comment is cut by characters: white space at the front of a line is space, tab and form feed, then any number of `*`.",
    "constant": "An enum constant is no field, and has none.",
    "enclosing": "`type_of` gives a type without an enclosing type, whatever encloses it; its arguments are its own type parameters alone, and not those of a type around it.",
    "access": "No look-up tests access or `static`: a private member type is inherited as any other, a type of another package that isn't public is found by an import, and "
              "the type parameters of a class are seen in its static members.",
    "simple": "A simple name has none in front of it, so for an inherited member type the variables of the class around it stay (javac puts in the arguments of the "
              "superclass: `TreeMap.AscendingSubMap.AscendingEntrySetView` of the JDK is such a type).",
    "object": "An interface has no members of `java.lang.Object`, which is none of its header's types.",
    "hidden": "What is hidden is in no list (javac's `getAllMembers` has hidden fields, member types and static methods).",
    "interface": "A method of a class removes that of an interface (javac has both, or where the class is `java.lang.Object` that of the interface alone).",
    "first": "So the order of the list decides, and not which type is further down: with `interface J extends I`, which both declare `m()`, the members of "
             "`class C implements I, J` have `I.m` alone, and those of `class C implements J, I` have `J.m` (javac: `J.m` in both).",
    "static": "All others are, even a static method of an interface (by JLS 8.4.8 and for javac it is not).",
    "private": "A private method may override another one (javac: no).",
    "way round": "A method of a class may override one of an interface, but not the other way round (for javac one of an interface overrides one of `java.lang.Object`); "
                 "annotation interfaces count as interfaces (JLS 9.6).",
    "symmetric": "Except for static, private, package-private and interface methods overriding is symmetric: in a subclass the superclass's method overrides the "
                 "subclass's where their signatures agree, and of two interfaces each overrides the other (javac: no).",
    "between": "A package-private method is overridden by one of its package also where a class of another package is between the two:",
    "signature": "For subsignatures neither names nor the bounds of type parameters are compared (JLS 8.4.2 compares both), nor results and what is thrown.",
    "interfaces": "An interface with interfaces has these alone as its direct supertypes (JLS 4.10.2; javac's `directSupertypes` has `Object` in front of them).",
    "bounds": "A type variable has its bounds (javac has `Object` in front of an interface).",
    "primitive": "A primitive type has the next one of its chain as its direct supertype, and `char` has `int` (JLS 4.10.1; javac's `directSupertypes` gives none).",
    "arrays": "Arrays are compared by the direct supertypes of their items, step by step.",
    "erased": "They are erased at one step.",
    "captured": "A wildcard as an argument is put in unchanged: nothing is captured.",
    "alone": "A wildcard has no bound but its own: the erasure of `?` is `java.lang.Object` (for javac a `?` in `Set<?>` has the bound of the type parameter of `Set` too).",
    "arrays above": "The direct supertypes of an array are the arrays of those of its item, and where the item is a primitive type or has none, the three that all arrays "
                    "have (JLS 4.10.3; javac's `directSupertypes` has the array of the superclass alone, and leaves `Object` out).",
    "wildcard": "A wildcard has no supertypes and is the same as no type, so it is a subtype of no type and assignable to none.",
    "nothing": "A wildcard, an error type, `null` and `void` have no supertypes.",
    "whole": "So enclosing types are compared whole: `Outer<String>.Inner<B>` and `Inner<B>` are not related, either way (for javac the first is below the second as a raw one).",
    "object bound": "An argument `? extends X` contains neither `?` nor `? super Y`, also where `X` is `Object`.",
    "variable": "A raw type is assignable to a type variable or a wildcard whose erasure it reaches:",
    "printed": "An executable is its parameters in brackets and its result, without its type parameters and what it throws.",
    "null": "`null` prints as `null` (javac: `<nulltype>`).",
    "element": "`AsElement` gives the element of a class type or of a type variable, and none of an array, a wildcard or an error type.",
    "arguments": "`DeclaredType` asks for the number of arguments alone: any mirror may be one, `int` too (the JDK refuses that).",
    "no array": "`ArrayType` takes what an array may hold, and also `null` and error types; no wildcard, no package, no executable, neither `Void` nor `Nothing` (the JDK "
                "makes an array of no type).",
    "declared": "It has no enclosing type.",
    "raw member": "A member type without type parameters is not raw, also in a raw enclosing type: `(O).Pl` keeps `O`'s variable (javac: erased).",
    "same": "A wildcard is not the same as any type, not even as itself; inside a type wildcards are compared by their parts.",
}


def flat(text):
    return " ".join(text.split())


def check_sentences(path):
    """Ends the run where a sentence does not stand in the file, as one or as the front of a longer one."""
    with open(path, encoding="utf-8") as file:
        decided = flat(file.read())
    absent = [sentence for sentence in SENTENCES.values() if flat(sentence).rstrip(".") not in decided]
    if absent:
        sys.exit("\n".join(["these sentences are not in docs/DECISIONS.md:", *absent]))


# ---- types: (FORM, ..) with the parts of a form


def parse_type(pieces):
    """The type at the front of the pieces of a word, which it takes."""
    piece = pieces.pop(0)
    if piece == "[]" or piece in ("?extends", "?super"):
        return (piece, parse_type(pieces))
    if piece.startswith("intersection<"):
        return ("intersection", tuple(parse_type(pieces) for _ in range(int(piece.partition("<")[2]))))
    form, is_named, of = piece.partition("=")
    if is_named and form == "executable":
        variables, parameters, thrown = of.split("<")
        of_parameters = tuple(parse_type(pieces) for _ in range(int(parameters)))
        result = parse_type(pieces)
        return ("executable", variables, of_parameters, result, tuple(parse_type(pieces) for _ in range(int(thrown))))
    if is_named and form != "within":
        return (form, of)
    if piece in PLAIN:
        return (piece,)
    at, _, count = (of if is_named else piece).partition("<")
    around = parse_type(pieces) if is_named else None
    return ("class", at, around, tuple(parse_type(pieces) for _ in range(int(count or "0"))))


TYPES = ("class", "interface", "enum", "annotation_type")
PLAIN = ("?", "nothing", "void", "null", "boolean", "byte", "short", "int", "long", "char", "float", "double")


def type_of(word):
    return parse_type(word.split("/"))


def parts(of):
    """All types in a type, itself among them."""
    yield of
    for each in of[1:]:
        for inner in each if isinstance(each, tuple) and each and isinstance(each[0], tuple) else (each,):
            if isinstance(inner, tuple) and inner:
                yield from parts(inner)


def some(of, test):
    return any(test(each) for each in parts(of))


def is_class(of, name=None):
    return of[0] == "class" and name in (None, of[1])


def is_array(of):
    return of[0] == "[]"


def is_within(of):
    return of[0] == "class" and of[2] is not None


def is_wildcard(of):
    return of[0] in ("?", "?extends", "?super")


def without_enclosing(of):
    """The type without the types around its class types."""
    if not isinstance(of, tuple):
        return of
    if of and of[0] == "class":
        return ("class", of[1], None, tuple(map(without_enclosing, of[3])))
    return tuple(map(without_enclosing, of))


def renamed(of, names):
    """The type with other names of class types."""
    if not isinstance(of, tuple):
        return of
    inner = tuple(renamed(each, names) for each in of)
    return (of[0], names.get(of[1], of[1]), *inner[2:]) if of and of[0] == "class" else inner


OBJECT = ("class", "java.lang.Object", None, ())


# ---- values


def parse_value(text, at, behind):
    """A value at a place of a text, and the place behind it."""
    if text.startswith("array[", at):
        return parse_items(text, at + len("array["), "]", parse_value)
    if text.startswith("@", at):
        return parse_annotation(text, at)
    if text.startswith("class:", at):
        end = re.compile(r"class:(?:\[\]/)*[^;)\]]*").match(text, at).end()
        return ("class", type_word(type_of(text[at + len("class:"):end]))), end
    end = min((found for found in (text.find(each, at) for each in behind) if found >= 0), default=len(text))
    form, _, said = text[at:end].partition(":")
    if form in ("true", "false"):
        return ("truth", form), end
    if form in ("text", "other", "floating"):
        said = "" if said == "-" else urllib.parse.unquote(said)
    return ("character" if form == "char" else form, said), end


def parse_items(text, at, closing, parse):
    items = []
    while text[at] != closing:
        item, at = parse(text, at + (text[at] == ";"), ";)]")
        items.append(item)
    return ("array", items), at + 1


def parse_pair(text, at, behind):
    end = text.index("=", at)
    value, after = parse_value(text, end + 1, behind)
    return (text[at:end], value), after


def parse_annotation(text, at):
    end = text.index("(", at)
    (_, pairs), behind = parse_items(text, end + 1, ")", parse_pair)
    return ("annotation", type_word(type_of(text[at + 1:end])), pairs), behind


def type_word(of):
    """The type in the words that annotations.py has."""
    if of[0] == "[]":
        return type_word(of[1]) + "[]"
    if of[0] == "error":
        return f"error({of[1]})"
    return of[1] if of[0] == "class" else of[0]


def items(reply):
    """The items of a reply, or None where it is refused."""
    frame, *words = reply.split(" ")
    if frame in ("refused", "failed"):
        return None
    return [] if words == ["none"] else words


def value_items(reply, parse):
    return [parse(word, 0)[0] for word in items(reply)]


# ---- doc comments


def doc_differences(ours, theirs):
    """Those of two texts of a doc comment. javac drops the stars and the blanks, or the line end, at its front, and keeps the blanks of lines without stars."""
    found = []
    if ours.startswith("*"):
        found, ours = ["marker"], ours.lstrip("*")
    if ours[:1] in (" ", "\t", "\f") and ours.lstrip(" \t\f") == theirs.lstrip(" \t\f"):
        return [*found, "blanks"]
    rest = ours.lstrip(" \t\f")
    if rest != ours and not rest.startswith("\n"):
        found, ours = [*found, "blanks"], rest
    if rest.startswith("\n") and (rest[1:] == theirs or not theirs.startswith("\n")):
        found, ours = [*found, "line end"], rest[1:]
    if ours == theirs:
        return found
    cut = lambda text: re.sub(r"(?m)^[ \t\f]+", "", text)  # noqa: E731
    return [*found, "lines" if cut(ours) == cut(theirs) else None]


# ---- differences


class Differences:
    """Those between two replies to a question."""

    def __init__(self, said, question, ours, theirs):
        self.said, self.question, self.ours, self.theirs = said, question, ours, theirs
        self.row, *self.arguments = question.split(" ")

    def kind(self, at):
        return self.said.elements.get(at, ["none"])[0]

    def name(self, at):
        return self.said.elements.get(at, ["", "", None])[2]

    def modifiers(self, at):
        return self.said.elements.get(at, ["", "none"])[1].split("+")

    def variables(self, at):
        """The number of type parameters of an element."""
        return int(self.said.elements.get(at, ["", "", "", "", "0"])[4])

    def is_raw(self, of):
        """Whether a type is a class type without arguments whose class has type parameters."""
        return is_class(of) and not of[3] and self.variables(of[1]) > 0

    def is_raw_inside(self, of):
        """Whether a type is a class type without arguments and without an enclosing type, whose class has no type parameters and stands in one that has."""
        return is_class(of) and of[2] is None and not of[3] and not self.variables(of[1]) and self.is_inside(of[1])

    def is_inside(self, at):
        around = self.owner(at)
        return around != "" and (self.variables(around) > 0 or self.is_inside(around))

    def owner(self, at):
        return at.rpartition(":")[0]

    def is_interface(self, at):
        return self.kind(at) in ("interface", "annotation_type")

    def found(self):
        apart = self.said.aparts.get(self.question, self.theirs)
        if apart != self.theirs and self.ours != self.theirs:
            self.theirs = apart
            return ["together", *self.found()]
        if self.ours == "refused NoSuch" and self.is_about_absent():
            return ["absent"]
        if self.ours == self.theirs:
            return ["enclosed"] if self.question in self.said.orders else []
        special = getattr(self, f"of_{self.row}", None)
        if special is not None:
            return special()
        if self.ours.startswith("mirrors ") and self.theirs.startswith("mirrors "):
            return self.mirrors()
        if self.ours.startswith("truth ") and self.theirs.startswith("truth "):
            return [self.truth()]
        return [None]

    def is_about_absent(self):
        """Whether the question names a type of a file that the program does not read."""
        return any(re.split("[:<]", word)[0] in self.said.unread for each in self.arguments for word in re.split("[/=+]", each))

    # -- elements

    def of_Info(self):
        ours, theirs = self.ours.split(" "), self.theirs.split(" ")
        if len(ours) != len(theirs) or ours[:2] + ours[3:] != theirs[:2] + theirs[3:] or ours[1] != "enum":
            return [None]
        more = [each for each in theirs[2].split("+") if each not in ("abstract", "sealed")]
        return ["enum" if ours[2].split("+") == (more or ["none"]) else None]

    def of_Enclosing(self):
        return ["module" if self.theirs.startswith("elements module=") and self.ours == "elements none" else None]

    def of_Enclosed(self):
        ours, theirs = items(self.ours), items(self.theirs)
        if ours is None or theirs is None:
            return [None]
        if set(theirs) - set(ours) and set(theirs) - set(ours) <= self.said.unread and set(ours) < set(theirs):
            return ["absent"]
        return ["enclosed"] if sorted(ours) == sorted(theirs) else [None]

    def of_AnnotatedWith(self):
        ours, theirs = items(self.ours), items(self.theirs)
        if ours is None or theirs is None:
            return [None]
        apart = {question.partition(" ")[2] for question in self.said.aparts}
        return sorted({"together" if each in apart else None for each in set(ours) ^ set(theirs)}, key=str)

    def of_DocComment(self):
        ours, theirs = ([urllib.parse.unquote(each) if each != "-" else "" for each in items(reply)] for reply in (self.ours, self.theirs))
        if len(ours) != 1 or len(theirs) != 1:
            return [None]
        return doc_differences(ours[0], theirs[0])

    # -- annotations and values

    def comparison(self):
        kind = {"Annotations": "mirrors", "AllAnnotations": "all_mirrors"}.get(self.row, self.row)
        return annotations.Comparison(self.said, kind, self.arguments[0])

    def of_Annotations(self):
        if items(self.ours) is None or items(self.theirs) is None:
            return [None]
        comparison = self.comparison()
        comparison.annotations(value_items(self.ours, parse_annotation), value_items(self.theirs, parse_annotation))
        return comparison.found

    of_AllAnnotations = of_Annotations

    def pairs(self, reply):
        return [parse_pair(word, 0, ";)]")[0] for word in items(reply)]

    def is_kept_out(self):
        """Whether the program has no annotation of that number at the element, since a written one keeps it out."""
        question = f"AllAnnotations {self.arguments[0]}"
        ours, theirs = self.said.told[question], self.said.rows[question]
        return self.ours == "refused WrongKind" and int(self.arguments[1]) >= len(items(ours)) and "twice" in differences(self.said, question, ours, theirs)

    def of_ValuesWithDefaults(self):
        if items(self.theirs) is not None and self.is_kept_out():
            return ["twice"]
        if items(self.ours) is None or items(self.theirs) is None:
            return [None]
        if f"AllAnnotations {self.arguments[0]}" in self.said.aparts:
            # javac has no number for each of those that are written more than once.
            return ["together"]
        comparison = self.comparison()
        comparison.pairs(self.pairs(self.ours), self.pairs(self.theirs))
        return comparison.found

    of_DefaultValue = of_ValuesWithDefaults

    def of_ConstantValue(self):
        if self.kind(self.arguments[0]) == "enum_constant" and (self.ours, self.theirs) == ("refused WrongKind", "values none"):
            return ["constant"]
        if items(self.ours) is None or items(self.theirs) is None:
            return [None]
        comparison, ours, theirs = self.comparison(), self.pairs(self.ours), self.pairs(self.theirs)
        if not ours and theirs:
            comparison.note({"expression": "initialiser", "absent": "absent", "form": "joined"}.get(self.said.forms.get(self.arguments[0])))
        elif not theirs:
            comparison.note(None)
        else:
            comparison.value(ours[0][1], theirs[0][1])
        return comparison.found

    # -- members

    def of_AllMembers(self):
        ours, theirs = items(self.ours), items(self.theirs)
        if ours is None or theirs is None:
            return [None]
        found = [self.missing(each, ours) for each in theirs if each not in ours]
        return found + [self.surplus(each, theirs) for each in ours if each not in theirs]

    def alike(self, at, members):
        """The members of the same name and, if it is a method, as many parameters."""
        kind, _, name, *_ = self.said.elements[at]
        same = [each for each in members if each in self.said.elements and self.said.elements[each][2] == name and each != at]
        if kind in ("method", "constructor"):
            return [each for each in same if self.kind(each) == "method" and self.count(each) == self.count(at)]
        return [each for each in same if self.kind(each) not in ("method", "constructor") and (self.kind(each) in TYPES) == (kind in TYPES)]

    def between(self, of):
        """The members of the types above a type, which may hide others for a type between, and are themselves not inherited."""
        return [at for at in self.said.elements if self.owner(at) in self.said.above.get(of, ())]

    def count(self, at):
        parameters = self.said.elements[at][3]
        return 0 if parameters == "-" else parameters.count(",") + 1

    def missing(self, at, ours):
        """Why the program does not list a member that javac lists."""
        of = self.arguments[0]
        if self.owner(at) == "java.lang.Object" and self.is_interface(of):
            return "object"
        others = self.alike(at, ours) or self.alike(at, self.between(of))
        if not others:
            return None
        if self.kind(at) != "method" or any("static" in self.modifiers(each) for each in others):
            return "hidden"
        if self.is_interface(self.owner(at)):
            return "interface" if any(not self.is_interface(self.owner(each)) for each in others) else "first"
        return "signature"

    def surplus(self, at, theirs):
        if "static" in self.modifiers(at) and self.kind(at) == "method" and self.is_interface(self.owner(at)):
            return "static"
        others = self.alike(at, theirs) if self.kind(at) == "method" else []
        if not others:
            return None
        is_of_class = not self.is_interface(self.owner(at))
        return "interface" if is_of_class and all(self.is_interface(self.owner(each)) for each in others) else "first"

    def of_Overrides(self):
        if items(self.ours) is None or items(self.theirs) is None:
            return [None]
        one, other, _ = self.arguments
        if self.ours == "truth no":
            return ["way round" if self.is_interface(self.owner(one)) and not self.is_interface(self.owner(other)) else None]
        if "private" in self.modifiers(one):
            return ["private"]
        if self.owner(one) not in self.said.above or self.owner(other) not in self.said.above.get(self.owner(one), ()):
            return ["symmetric"]
        if not {"public", "protected", "private"} & set(self.modifiers(other)) and not self.is_interface(self.owner(other)):
            return ["between"]
        return ["signature"]

    # -- types

    def mirrors(self):
        ours, theirs = ([type_of(word) for word in items(reply)] for reply in (self.ours, self.theirs))
        if len(ours) != len(theirs):
            return [None]
        return [self.differing(one, other) for one, other in zip(ours, theirs) if one != other]

    def differing(self, ours, theirs):
        if without_enclosing(ours) == without_enclosing(theirs):
            is_of_type = self.row == "TypeOf" and self.kind(self.arguments[0]) in TYPES
            return "enclosing" if is_of_type else "simple"
        if self.is_less_accessible(ours, theirs):
            return "access"
        if some(ours, lambda each: each[0] == "error") and some(theirs, lambda each: is_class(each) and each[1].partition(":")[0] in self.said.unread):
            return "absent"
        return "captured" if ours == self.uncaptured(theirs, ours) else None

    def is_less_accessible(self, ours, theirs):
        """Whether the types differ in classes of one name alone, of which ours are private."""
        pairs = {(one[1], other[1]) for one, other in zip(parts(ours), parts(theirs)) if is_class(one) and is_class(other) and one[1] != other[1]}
        are_private = all("private" in self.modifiers(one) and self.name(one) == self.name(other) for one, other in pairs)
        return are_private and ours == renamed(theirs, {other: one for one, other in pairs})

    def uncaptured(self, theirs, ours):
        """Our type, where it has a wildcard within a wildcard of javac's and is otherwise the same."""
        if ours[0] in ("?extends", "?super") and is_wildcard(ours[1]) and is_wildcard(theirs):
            return ours
        if ours[0] != theirs[0]:
            return theirs
        if ours[0] in ("[]", "?extends", "?super"):
            return (ours[0], self.uncaptured(theirs[1], ours[1]))
        each = lambda some, others: tuple(self.uncaptured(one, other) for one, other in zip(some, others))  # noqa: E731
        if ours[0] == "executable" and ours[1] == theirs[1] and len(ours[2]) == len(theirs[2]) and len(ours[4]) == len(theirs[4]):
            return ("executable", ours[1], each(theirs[2], ours[2]), self.uncaptured(theirs[3], ours[3]), each(theirs[4], ours[4]))
        if ours[0] == "class" and ours[1:3] == theirs[1:3] and len(ours[3]) == len(theirs[3]):
            return ("class", ours[1], ours[2], each(theirs[3], ours[3]))
        return theirs

    def of_DirectSupertypes(self):
        if items(self.ours) is None or items(self.theirs) is None:
            return [None]
        of = type_of(self.arguments[0])
        ours, theirs = ([type_of(word) for word in items(reply)] for reply in (self.ours, self.theirs))
        if is_array(of):
            return ["arrays above"]
        if of[0] in PLAIN:
            return ["primitive" if not theirs and ours else None]
        if theirs[:1] == [OBJECT] and ours == theirs[1:]:
            return ["bounds" if of[0] == "variable" else "interfaces"]
        if len(ours) == len(theirs):
            found = self.mirrors()
            if None in found and self.is_raw(of):
                return ["erased"]
            if None not in found:
                return found
        return ["raw member" if self.is_raw_inside(of) else None]

    def of_PrintType(self):
        of = type_of(self.arguments[0])
        if of[0] == "executable":
            ours, theirs = (urllib.parse.unquote(items(reply)[0]) for reply in (self.ours, self.theirs))
            return ["printed" if ours == re.sub(r"^<[^(]*>\(", "(", theirs).replace("...)", "[])") else None]
        return ["null" if of[0] == "null" else None]

    def of_MemberType(self):
        if items(self.ours) is None or items(self.theirs) is None:
            return [None]
        container = type_of(self.arguments[0])
        found = self.mirrors()
        if None in found and self.is_raw_inside(container):
            return ["raw member"]
        if None in found and self.is_raw(container):
            return ["erased"]
        if None in found and some(container, is_within):
            return ["simple"]
        return found

    def of_Erasure(self):
        if items(self.ours) is None or items(self.theirs) is None:
            return [None]
        return ["alone"] if type_of(self.arguments[0])[0] in ("?", "?super") else self.mirrors()

    def of_AsElement(self):
        return ["element" if type_of(self.arguments[0])[0] == "error" else None]

    def of_ArrayType(self):
        return ["no array" if self.arguments == ["nothing"] and self.ours == "refused WrongKind" else None]

    def of_DeclaredType(self):
        if self.theirs == "refused WrongKind":
            of_arguments = [type_of(each) for each in self.arguments[1:]]
            if any(each[0] in PLAIN and each[0] != "?" or each[0] in ("package", "executable") for each in of_arguments):
                return ["arguments"]
            return ["declared" if self.is_inside(self.arguments[0]) else None]
        return self.mirrors() if items(self.ours) is not None and items(self.theirs) is not None else [None]

    # -- truths

    def truth(self):
        """The sentence of two different truths."""
        one, other = (type_of(each) for each in self.arguments[:2])
        if self.row in ("Subtype", "Assignable") and self.is_raw_inside(one):
            return "raw member"
        if self.row in ("Subtype", "Assignable") and self.is_raw(one) and not is_wildcard(other):
            return "erased"
        return self.yes(one, other) if self.ours == "truth yes" else self.no(one, other)

    def yes(self, one, other):
        """Why the program says yes and javac no."""
        if self.row == "Subsignature" and (one[1], other[1]) != ("-", "-"):
            return "signature"
        return "variable" if self.row == "Assignable" and (other[0] == "variable" or is_wildcard(other)) else None

    def no(self, one, other):
        """Why the program says no and javac yes."""
        if is_wildcard(one) or is_wildcard(other):
            named = {"Subtype": "wildcard", "Assignable": "wildcard", "SameType": "same"}.get(self.row)
            if named is not None:
                return named
        if some(one, is_within) or some(other, is_within):
            return "whole"
        if self.row == "Contains" and one == ("?extends", OBJECT):
            return "object bound"
        if self.row == "Contains" and one[0] == "?extends" and other[0] in ("?", "?super"):
            return "alone"
        return "arrays" if is_array(one) and is_array(other) else None


def differences(said, question, ours, theirs):
    """The sentences of the differences between the replies of the program and of javac."""
    return Differences(said, question, ours, theirs).found()
