"""A kit for annotation processors in Python: one module without dependencies, for Python 3.8 and later.

A processor is a class, and its program runs it:

    import dinxobhe

    class Greeter(dinxobhe.Processor):
        supports = ["hello.Greet"]

        def process(self, annotations, round):
            for root in round.roots:
                self.messager.note(f"{root.qualified_name} is new")

    dinxobhe.run(Greeter)

docs/PYTHON.md describes it, and docs/PROTOCOL.md the frames that it sends and reads. The module has six parts: the
forms of fields; elements, types and annotations, which are values that ask the host when they are read; the frames;
the talk with the host; what a processor is handed; and the loop that runs one.
"""
import enum
import os
import sys
import traceback

# The greatest length of a frame, and how deep mirrors and values in a frame are nested at most.
LONGEST, DEEPEST = 134_217_724, 256

# Reading a frame nested so deep takes a few calls for each level.
sys.setrecursionlimit(max(sys.getrecursionlimit(), 4000))


# The forms of fields. Each reads its bytes from a Reader, and spells what it has read as the same bytes.


class BadFrame(ValueError):
    """Bytes that are no frame: the place of the first bad one, from 0, and what kind of fault it is."""

    SAYS = {"Length": "bad length", "Tag": "bad tag", "Field": "bad field", "Pattern": "bad pattern",
            "Rest": "more than its fields"}

    def __init__(self, place, kind):
        super().__init__(f"{self.SAYS[kind]}, at byte {place} of the frame")
        self.place, self.kind = place, kind


class Reader:
    """Bytes that are read from the front. What is bad there raises BadFrame."""

    def __init__(self, data, at=0, session=None):
        self.data, self.at, self.session, self.depth = data, at, session, 0

    def take(self, count):
        if count > len(self.data) - self.at:
            raise BadFrame(len(self.data) - 1, "Field")
        self.at += count
        return self.data[self.at - count:self.at]

    def take_variant(self, variants):
        """The first byte of a mirror or value, which is one level deeper until `self.depth` is set back."""
        number = self.take(1)[0]
        self.depth += 1
        if number not in variants or self.depth > DEEPEST:
            raise self.bad()
        return number

    def bad(self, kind="Field"):
        """The fault of the byte that was taken last."""
        return BadFrame(self.at - 1, kind)


class Number:
    """A number of so many bytes, the highest first."""

    def __init__(self, size, signed=False):
        self.size, self.signed = size, signed

    def read(self, reader):
        return int.from_bytes(reader.take(self.size), "big", signed=self.signed)

    def spell(self, number):
        try:
            return number.to_bytes(self.size, "big", signed=self.signed)
        except OverflowError as fault:
            raise ValueError(f"{number}: {fault}") from None


U16, U32, I64 = Number(2), Number(4), Number(8, signed=True)


class Choice:
    """A byte that says which of some values it is."""

    def __init__(self, values):
        self.values = dict(values)
        self.numbers = {value: number for number, value in self.values.items()}

    @classmethod
    def of(cls, values):
        """A choice of values that are numbered from 0."""
        return cls(enumerate(values))

    def read(self, reader):
        number = reader.take(1)[0]
        if number not in self.values:
            raise reader.bad()
        return self.values[number]

    def spell(self, value):
        if value not in self.numbers:
            raise ValueError(f"{value!r} is none of {', '.join(map(str, self.numbers))}")
        return bytes([self.numbers[value]])


BOOL = Choice.of([False, True])


class Bytes:
    """Bytes, behind their number."""

    def read(self, reader):
        return reader.take(U32.read(reader))

    def spell(self, content):
        return U32.spell(len(content)) + content


class Text(Bytes):
    """A text in UTF-8, behind the number of its bytes."""

    def read(self, reader):
        try:
            return super().read(reader).decode()
        except UnicodeDecodeError:
            raise reader.bad() from None

    def spell(self, text):
        return super().spell(text.encode())


BYTES, TEXT = Bytes(), Text()


class Optional:
    """A value or None, behind a byte that says which."""

    def __init__(self, form):
        self.form = form

    def read(self, reader):
        return self.form.read(reader) if BOOL.read(reader) else None

    def spell(self, value):
        return BOOL.spell(value is not None) + (b"" if value is None else self.form.spell(value))


class List:
    """Values of one form, behind their number. They are read as a tuple."""

    def __init__(self, form):
        self.form = form

    def read(self, reader):
        values = []
        for _ in range(U32.read(reader)):
            values.append(self.form.read(reader))
        return tuple(values)

    def spell(self, values):
        return U32.spell(len(values)) + b"".join([self.form.spell(value) for value in values])


class Row:
    """Some fields one behind the other, as a tuple."""

    def __init__(self, *forms):
        self.forms = forms

    def read(self, reader):
        return tuple([form.read(reader) for form in self.forms])

    def spell(self, values):
        return b"".join([form.spell(value) for form, value in zip(self.forms, values)])


class TextList(List):
    """A list of texts of which each fits those before it, and is a pattern where that is asked."""

    def __init__(self, fits, patterns=False):
        super().__init__(TEXT)
        self.fits, self.patterns = fits, patterns

    def read(self, reader):
        texts = []
        for _ in range(U32.read(reader)):
            text = TEXT.read(reader)
            if not self.fits(texts, text):
                raise reader.bad()
            if self.patterns and not is_pattern(text):
                raise reader.bad("Pattern")
            texts.append(text)
        return tuple(texts)


class Options(List):
    """A list of keys and values, ascending by the keys."""

    def __init__(self):
        super().__init__(Row(TEXT, TEXT))

    def read(self, reader):
        keys, values = [], []
        for _ in range(U32.read(reader)):
            keys.append(TEXT.read(reader))
            if not ascends(keys[:-1], keys[-1]):
                raise reader.bad()
            values.append(TEXT.read(reader))
        return tuple(zip(keys, values))


def ascends(texts, text):
    """Python orders texts by their characters, which is the order of their bytes in UTF-8."""
    return not texts or texts[-1] < text


def is_new(texts, text):
    return text not in texts


RESERVED = frozenset(
    "abstract assert boolean break byte case catch char class const continue default do double else enum extends "
    "final finally float for goto if implements import instanceof int interface long native new package private "
    "protected public return short static strictfp super switch synchronized this throw throws transient try void "
    "volatile while _ true false null".split())


def is_pattern(text):
    """Identifiers joined by dots, such with `.*` behind them, or `*` alone."""
    names = text[:-2] if text.endswith(".*") else text
    return text == "*" or all(name.replace("$", "_").isidentifier() and name not in RESERVED
                              for name in names.split("."))


class Fields:
    """The fields of a class of records, in their order."""

    def __init__(self, record):
        self.record = record

    def read(self, reader):
        values = []
        for form in self.record.forms.values():
            values.append(form.read(reader))
        value = self.record(*values)
        value.session = reader.session
        return value

    def spell(self, value):
        return b"".join([form.spell(getattr(value, name)) for name, form in self.record.forms.items()])


class Record:
    """A value of some fields, each of the form that stands behind its name."""

    forms = {}
    session = None

    def __init__(self, *values, **named):
        named.update(zip(self.forms, values))
        if named.keys() != self.forms.keys() or len(values) > len(self.forms):
            raise TypeError(f"{type(self).__name__} has the fields {', '.join(self.forms) or 'none'}")
        self.__dict__.update(named)

    def _values(self):
        return tuple([getattr(self, name) for name in self.forms])

    def __eq__(self, other):
        return type(self) is type(other) and self._values() == other._values()

    def __hash__(self):
        return hash((type(self).__name__, self._values()))

    def __repr__(self):
        fields = [f"{name}={_shown(getattr(self, name))}" for name in self.forms]
        return f"{type(self).__name__}({', '.join(fields)})"

    def _ask(self, question):
        if self.session is None:
            raise RuntimeError(f"{self!r} was not read from a host, so it can ask none")
        return self.session.ask(question)


def _shown(value):
    return f"{len(value)} bytes" if isinstance(value, bytes) and len(value) > 40 else repr(value)


# Elements, types and annotations, under the names of javax.lang.model.


class ElementKind(enum.Enum):
    PACKAGE, ENUM, CLASS, ANNOTATION_TYPE, INTERFACE, ENUM_CONSTANT = range(6)
    FIELD, PARAMETER, METHOD, CONSTRUCTOR, TYPE_PARAMETER = range(6, 11)

    @property
    def is_class(self):
        return self in (ElementKind.CLASS, ElementKind.ENUM)

    @property
    def is_interface(self):
        return self in (ElementKind.INTERFACE, ElementKind.ANNOTATION_TYPE)


class Modifier(enum.Enum):
    PUBLIC, PROTECTED, PRIVATE, ABSTRACT, DEFAULT, STATIC = range(6)
    FINAL, TRANSIENT, VOLATILE, SYNCHRONIZED, NATIVE, STRICTFP = range(6, 12)


class TypeKind(enum.Enum):
    BOOLEAN, BYTE, SHORT, INT, LONG, CHAR, FLOAT, DOUBLE = range(8)
    DECLARED, ERROR, TYPEVAR, ARRAY, WILDCARD, EXECUTABLE, NONE, VOID, NULL, PACKAGE = range(8, 18)

    @property
    def is_primitive(self):
        return self.value < 8


class Element(Record):
    """A package, a type, a member, a parameter or a type parameter (javax.lang.model.element).

    It is the name of a unit and the steps down to it. All else that is read of it is asked of the host, once in a
    round, but for what the name of a unit says: that it is a package, and the names of a package and of a type
    that is in no other one. Reading what an element of this kind does not have raises Refused (WRONG_KIND).
    """

    forms = {"unit": TEXT, "path": List(U16)}

    def __str__(self):
        return ":".join([self.unit, *map(str, self.path)])

    def __repr__(self):
        return f"<{self}>"

    @property
    def is_package(self):
        return not self.path and self.unit.rpartition(".")[2] == "package-info"

    @property
    def kind(self):
        return ElementKind.PACKAGE if self.is_package else self._info.kind

    @property
    def modifiers(self):
        """A set of Modifier, those that are implied included."""
        bits = self._info.modifiers
        return frozenset(modifier for modifier in Modifier if bits >> modifier.value & 1)

    @property
    def qualified_name(self):
        """The canonical name of a type or a package. It is empty for the unnamed package and for any other element."""
        if self.path:
            return self._info.canonical
        return self.unit.rpartition(".")[0] if self.is_package else self.unit

    @property
    def simple_name(self):
        return self._info.simple if self.path else self.qualified_name.rpartition(".")[2]

    @property
    def is_var_args(self):
        return self._info.varargs

    @property
    def enclosing_element(self):
        """The element around it, for a type that is in no other one its package, and None for a package."""
        return _first(self._ask(Ask.Enclosing(self)))

    @property
    def enclosed_elements(self):
        """Of a type its members, in order, and of a package its types."""
        return self._ask(Ask.Enclosed(self))

    @property
    def type_parameters(self):
        return self._ask(Ask.TypeParameters(self))

    @property
    def parameters(self):
        return self._ask(Ask.Parameters(self))

    @property
    def annotation_mirrors(self):
        """The annotations that are written on it."""
        return self._numbered(self._ask(Ask.Annotations(self)))

    @property
    def all_annotation_mirrors(self):
        """Those, and then the inherited ones."""
        return self._numbered(self._ask(Ask.AllAnnotations(self)))

    def annotation(self, name):
        """The first annotation present on it whose interface has this canonical name, or None."""
        return _first([annotation for annotation in self.all_annotation_mirrors if annotation.name == name])

    @property
    def doc_comment(self):
        return _first(self._ask(Ask.DocComment(self)))

    @property
    def constant_value(self):
        """The AnnotationValue that a field has as a constant, or None."""
        return _only_value(self._ask(Ask.ConstantValue(self)))

    @property
    def default_value(self):
        """The AnnotationValue that the method of an annotation interface has as its default, or None."""
        return _only_value(self._ask(Ask.DefaultValue(self)))

    def as_type(self):
        return _first(self._ask(Ask.TypeOf(self)))

    @property
    def return_type(self):
        return self.as_type().return_type

    @property
    def thrown_types(self):
        return self.as_type().thrown_types

    @property
    def superclass(self):
        """The type of the superclass; a NoType for an interface."""
        return _first(self._ask(Ask.Superclass(self)))

    @property
    def interfaces(self):
        return self._ask(Ask.Interfaces(self))

    @property
    def bounds(self):
        return self._ask(Ask.Bounds(self))

    @property
    def _info(self):
        return self._ask(Ask.Info(self))

    def _numbered(self, annotations):
        for number, annotation in enumerate(annotations):
            annotation.place = (self, number)
        return annotations


REF = Fields(Element)


class MirrorForm:
    """The form of a type: which one it is, and the fields of that."""

    classes = {}

    def read(self, reader):
        mirror = Fields(self.classes[reader.take_variant(self.classes)]).read(reader)
        reader.depth -= 1
        return mirror

    def spell(self, mirror):
        return bytes([mirror.number]) + Fields(type(mirror)).spell(mirror)


MIRROR = MirrorForm()


class TypeMirror(Record):
    """A type (javax.lang.model.type). As a text it is what the host prints for it, which is asked."""

    def __init_subclass__(cls):
        MirrorForm.classes[cls.number] = cls

    def __str__(self):
        return _first(self._ask(Ask.PrintType(self)))


class PrimitiveType(TypeMirror):
    number, forms = 0, {"kind": Choice.of(list(TypeKind)[:8])}


class DeclaredType(TypeMirror):
    """A class or an interface. It has an enclosing type where type arguments are written on a name before its last."""

    number, kind = 1, TypeKind.DECLARED
    forms = {"element": REF, "enclosing_type": Optional(MIRROR), "type_arguments": List(MIRROR)}


class ErrorType(TypeMirror):
    """A type that is neither among the sources nor among the stubs, by its text."""

    number, kind, forms = 2, TypeKind.ERROR, {"name": TEXT}


class TypeVariable(TypeMirror):
    number, kind, forms = 3, TypeKind.TYPEVAR, {"element": REF}


class ArrayType(TypeMirror):
    number, kind, forms = 4, TypeKind.ARRAY, {"component_type": MIRROR}


class BoundForm:
    """The form of a wildcard's bounds, by extends and by super, of which at most one is not None."""

    KIND = Choice.of(range(3))

    def read(self, reader):
        kind, bounds = self.KIND.read(reader), [None, None]
        if BOOL.read(reader) != (kind > 0):
            raise reader.bad()
        if kind > 0:
            bounds[kind - 1] = MIRROR.read(reader)
        return tuple(bounds)

    def spell(self, bounds):
        given = [number for number, bound in enumerate(bounds, 1) if bound is not None]
        if len(given) > 1:
            raise ValueError("a wildcard has one bound")
        return self.KIND.spell(sum(given)) + Optional(MIRROR).spell(_first([bounds[number - 1] for number in given]))


class WildcardType(TypeMirror):
    number, kind, forms = 5, TypeKind.WILDCARD, {"bounds": BoundForm()}

    @property
    def extends_bound(self):
        return self.bounds[0]

    @property
    def super_bound(self):
        return self.bounds[1]


class ExecutableType(TypeMirror):
    """The type of a method or a constructor. Its variables are the elements of its type parameters."""

    number, kind = 6, TypeKind.EXECUTABLE
    forms = {"type_variables": List(REF), "parameter_types": List(MIRROR), "return_type": MIRROR,
             "thrown_types": List(MIRROR)}


class NoType(TypeMirror):
    """No type, as the superclass of an interface."""

    number, kind = 7, TypeKind.NONE


class VoidType(TypeMirror):
    number, kind = 8, TypeKind.VOID


class NullType(TypeMirror):
    number, kind = 9, TypeKind.NULL


class PackageType(TypeMirror):
    number, kind, forms = 10, TypeKind.PACKAGE, {"name": TEXT}


class ValueKind(enum.Enum):
    BOOLEAN, INT, LONG, CHAR, STRING, CLASS, CONSTANT, ARRAY, ANNOTATION, OTHER, FLOATING = range(11)


class AnnotationValue:
    """A value in an annotation, or of a constant, by its kind.

    The value of a BOOLEAN is a bool, of an INT or a LONG an int, of a CHAR and of a STRING a str, of a CLASS a type,
    of a CONSTANT the element of the enum constant, of an ARRAY a tuple of AnnotationValue, of an ANNOTATION an
    AnnotationMirror. A FLOATING is the text of its literal, and an OTHER the text of what has no value here.
    """

    def __init__(self, kind, value):
        self.kind, self.value = kind, value

    def __eq__(self, other):
        return type(self) is type(other) and (self.kind, self.value) == (other.kind, other.value)

    def __hash__(self):
        return hash((self.kind, self.value))

    def __repr__(self):
        return f"AnnotationValue({self.kind}, {self.value!r})"


class CharacterForm:
    """The form of a character: its number, which is kept as one where it is none of Unicode."""

    def read(self, reader):
        number = U32.read(reader)
        return chr(number) if number <= sys.maxunicode else number

    def spell(self, character):
        return U32.spell(ord(character) if isinstance(character, str) else character)


class ValueForm:
    """The form of a value: which one it is, and what it is. A whole number says in a further byte how long it is."""

    WHOLE = Choice({3: ValueKind.INT, 4: ValueKind.LONG})

    def __init__(self):
        self.forms = {
            0: (ValueKind.BOOLEAN, BOOL), 1: (None, I64), 2: (ValueKind.CHAR, CharacterForm()),
            3: (ValueKind.STRING, TEXT), 4: (ValueKind.CLASS, MIRROR), 5: (ValueKind.CONSTANT, REF),
            6: (ValueKind.ARRAY, List(self)), 7: (ValueKind.ANNOTATION, Fields(AnnotationMirror)),
            8: (ValueKind.OTHER, TEXT), 9: (ValueKind.FLOATING, TEXT),
        }
        self.numbers = {kind: number for number, (kind, _) in self.forms.items()}

    def read(self, reader):
        kind, form = self.forms[reader.take_variant(self.forms)]
        value = AnnotationValue(kind or self.WHOLE.read(reader), form.read(reader))
        reader.depth -= 1
        return value

    def spell(self, value):
        number = self.numbers.get(value.kind, 1)
        whole = self.WHOLE.spell(value.kind) if number == 1 else b""
        return bytes([number]) + whole + self.forms[number][1].spell(value.value)


class AnnotationMirror(Record):
    """An annotation: its type, and the names and values that are written in it."""

    # The element on which it is present, and its number there; None where it is the value of another annotation.
    place = None

    @property
    def name(self):
        """The canonical name of its interface, or its text where that is not declared."""
        of = self.annotation_type
        return of.element.qualified_name if isinstance(of, DeclaredType) else getattr(of, "name", "")

    @property
    def values(self):
        """What is written in it, as a dictionary of AnnotationValue."""
        return dict(self.element_values)

    @property
    def values_with_defaults(self):
        """That, and the defaults of its other elements."""
        if self.place is not None:
            return dict(self._ask(Ask.ValuesWithDefaults(*self.place)))
        values = self.values
        if isinstance(self.annotation_type, DeclaredType):
            for method in self.annotation_type.element.enclosed_elements:
                if method.kind is ElementKind.METHOD and method.simple_name not in values:
                    default = method.default_value
                    values.update({} if default is None else {method.simple_name: default})
        return values

    def __getitem__(self, name):
        """The value of this element, the default included: `annotation["value"]`."""
        return self.values_with_defaults[name].value


VALUE = ValueForm()
NAMED_VALUES = List(Row(TEXT, VALUE))
AnnotationMirror.forms = {"annotation_type": MIRROR, "element_values": NAMED_VALUES}


# The frames. Those of a child have the kind of the frame that answers them.


class Claim(enum.Enum):
    """Whether a processor claims the annotations that it is offered."""

    ALWAYS, NEVER, VARIES = range(3)


class Answer(enum.Enum):
    """What a creation is answered."""

    ACCEPTED, EXISTS, UNSUPPORTED, BAD_NAME, TOO_LARGE = range(5)


class Reason(enum.Enum):
    """Why a question is refused."""

    NO_SUCH, WRONG_KIND, TOO_DEEP, TOO_LARGE = range(4)


class Location(enum.Enum):
    CLASS_OUTPUT, SOURCE_OUTPUT, NATIVE_HEADER_OUTPUT = range(3)


class MessageKind(enum.Enum):
    ERROR, WARNING, MANDATORY_WARNING, NOTE, OTHER = range(5)


class Frame(Record):
    """A frame: a tag, and its fields."""

    tag = reply = None


# Each class of frames by its tag.
FRAMES = {}


def _frame(tag, title, *, reply=None, **forms):
    FRAMES[tag] = type(title, (Frame,), {"tag": tag, "reply": reply, "forms": forms})
    return FRAMES[tag]


class Host:
    """The frames of the host."""

    Init = _frame(1, "Init", name=TEXT, level=U16, options=Options())
    Round = _frame(2, "Round", number=U32, over=BOOL, error=BOOL, offered=TextList(ascends), roots=TextList(ascends))
    Elements = _frame(16, "Elements", elements=List(REF))
    Info = _frame(17, "Info", kind=Choice.of(ElementKind), modifiers=U16, simple=TEXT, canonical=TEXT, varargs=BOOL)
    Texts = _frame(18, "Texts", texts=List(TEXT))
    Annotations = _frame(19, "Annotations", annotations=List(Fields(AnnotationMirror)))
    Values = _frame(20, "Values", values=NAMED_VALUES)
    Mirrors = _frame(21, "Mirrors", mirrors=List(MIRROR))
    Truth = _frame(22, "Truth", truth=BOOL)
    Created = _frame(23, "Created", answer=Choice.of(Answer))
    Noted = _frame(24, "Noted")
    Refused = _frame(25, "Refused", reason=Choice.of(Reason))


class Child:
    """The frames of a child that are no questions."""

    Hello = _frame(64, "Hello", patterns=TextList(is_new, patterns=True), options=TextList(is_new),
                   claim=Choice.of(Claim))
    Done = _frame(65, "Done", claimed=BOOL)
    CreateSource = _frame(66, "CreateSource", reply=Host.Created, name=TEXT, content=BYTES, origins=List(REF))
    CreateResource = _frame(67, "CreateResource", reply=Host.Created, location=Choice.of(Location), package=TEXT,
                            relative=TEXT, content=BYTES, origins=List(REF))
    CreateClass = _frame(68, "CreateClass", reply=Host.Created, name=TEXT, content=BYTES, origins=List(REF))
    Message = _frame(69, "Message", reply=Host.Noted, kind=Choice.of(MessageKind), element=Optional(REF), text=TEXT)


class Ask:
    """The questions of a child."""

    TypeElement = _frame(80, "TypeElement", reply=Host.Elements, name=TEXT)
    PackageElement = _frame(81, "PackageElement", reply=Host.Elements, name=TEXT)
    Info = _frame(82, "Info", reply=Host.Info, element=REF)
    Enclosing = _frame(83, "Enclosing", reply=Host.Elements, element=REF)
    Enclosed = _frame(84, "Enclosed", reply=Host.Elements, element=REF)
    TypeParameters = _frame(85, "TypeParameters", reply=Host.Elements, element=REF)
    Parameters = _frame(86, "Parameters", reply=Host.Elements, element=REF)
    PackageOf = _frame(87, "PackageOf", reply=Host.Elements, element=REF)
    DocComment = _frame(88, "DocComment", reply=Host.Texts, element=REF)
    Annotations = _frame(89, "Annotations", reply=Host.Annotations, element=REF)
    AllAnnotations = _frame(90, "AllAnnotations", reply=Host.Annotations, element=REF)
    ValuesWithDefaults = _frame(91, "ValuesWithDefaults", reply=Host.Values, element=REF, annotation=U16)
    DefaultValue = _frame(92, "DefaultValue", reply=Host.Values, element=REF)
    ConstantValue = _frame(93, "ConstantValue", reply=Host.Values, element=REF)
    AllMembers = _frame(94, "AllMembers", reply=Host.Elements, element=REF)
    Overrides = _frame(95, "Overrides", reply=Host.Truth, overrider=REF, overridden=REF, in_type=REF)
    TypeOf = _frame(96, "TypeOf", reply=Host.Mirrors, element=REF)
    Superclass = _frame(97, "Superclass", reply=Host.Mirrors, element=REF)
    Interfaces = _frame(98, "Interfaces", reply=Host.Mirrors, element=REF)
    Bounds = _frame(99, "Bounds", reply=Host.Mirrors, element=REF)
    SameType = _frame(100, "SameType", reply=Host.Truth, one=MIRROR, other=MIRROR)
    Subtype = _frame(101, "Subtype", reply=Host.Truth, one=MIRROR, other=MIRROR)
    Assignable = _frame(102, "Assignable", reply=Host.Truth, one=MIRROR, other=MIRROR)
    Contains = _frame(103, "Contains", reply=Host.Truth, one=MIRROR, other=MIRROR)
    Subsignature = _frame(104, "Subsignature", reply=Host.Truth, one=MIRROR, other=MIRROR)
    DirectSupertypes = _frame(105, "DirectSupertypes", reply=Host.Mirrors, mirror=MIRROR)
    Erasure = _frame(106, "Erasure", reply=Host.Mirrors, mirror=MIRROR)
    Boxed = _frame(107, "Boxed", reply=Host.Mirrors, mirror=MIRROR)
    Unboxed = _frame(108, "Unboxed", reply=Host.Mirrors, mirror=MIRROR)
    MemberType = _frame(109, "MemberType", reply=Host.Mirrors, container=MIRROR, element=REF)
    AsElement = _frame(110, "AsElement", reply=Host.Elements, mirror=MIRROR)
    PrintType = _frame(111, "PrintType", reply=Host.Texts, mirror=MIRROR)
    DeclaredType = _frame(112, "DeclaredType", reply=Host.Mirrors, element=REF, arguments=List(MIRROR))
    ArrayType = _frame(113, "ArrayType", reply=Host.Mirrors, mirror=MIRROR)
    AnnotatedWith = _frame(114, "AnnotatedWith", reply=Host.Elements, name=TEXT)
    Roots = _frame(115, "Roots", reply=Host.Elements)


def read(data, session=None):
    """The frame that these bytes are. Raises BadFrame where they are none."""
    reader = Reader(data, session=session)
    length = U32.read(reader)
    if not 1 <= length <= LONGEST:
        raise reader.bad("Length")
    tag = reader.take(1)[0]
    if tag not in FRAMES:
        raise reader.bad("Tag")
    frame = Fields(FRAMES[tag]).read(reader)
    if reader.at < len(data):
        reader.take(1)
        raise reader.bad("Rest")
    return frame


def spell(frame):
    """The bytes of a frame. Raises ValueError where a field is not of its form: the bytes are read again."""
    fields = Fields(type(frame)).spell(frame)
    data = U32.spell(1 + len(fields)) + bytes([frame.tag]) + fields
    read(data)
    return data


# The talk with the host.


class HostFault(Exception):
    """The host has left the protocol, or has ended within a frame or before a reply."""


class Refused(Exception):
    """The host refuses a question, or the origins of a file or the element of a message."""

    def __init__(self, frame, reason):
        super().__init__(f"{reason.name}: {frame!r}")
        self.frame, self.reason = frame, reason


class FilerException(Exception):
    """A file is not created, for the reason in `answer`."""

    def __init__(self, name, answer):
        super().__init__(f"{name} is not created: {answer.name}")
        self.name, self.answer = name, answer


class Session:
    """The talk with the host over two streams, a frame at a time. It remembers what it has asked in a round."""

    def __init__(self, source, sink):
        self.source, self.sink = source, sink
        self.replies, self.in_round, self.handled = {}, False, None

    def read(self):
        """The next frame of the host, or None at the end of the stream."""
        data = self.source.read(4)
        if data == b"":
            return None
        length = int.from_bytes(data, "big")
        if len(data) == 4 and length <= LONGEST:
            data += self.source.read(length)
        if len(data) != 4 + length and length <= LONGEST:
            raise HostFault("the host has ended within a frame")
        try:
            return read(data, self)
        except BadFrame as fault:
            raise HostFault(f"the host sent no frame: {fault}") from None

    def send(self, frame):
        data = memoryview(spell(frame))
        while data:
            data = data[self.sink.write(data):]
        self.sink.flush()

    def exchange(self, frame):
        """Sends a frame, and gives the reply to it. Raises Refused where the host answers by that."""
        if not self.in_round:
            raise RuntimeError("the host answers in rounds alone")
        self.send(frame)
        reply = self.read()
        if isinstance(reply, Host.Refused):
            raise Refused(frame, reply.reason)
        if reply is None:
            raise HostFault(f"the host has ended before it answered {frame!r}")
        if not isinstance(reply, frame.reply):
            raise HostFault(f"the host answered {frame!r} by {reply!r}")
        return reply

    def ask(self, question):
        """The answer to a question, which is asked once in a round: the one field of the reply, or the whole Info."""
        if question not in self.replies:
            reply = self.exchange(question)
            self.replies[question] = reply if isinstance(reply, Host.Info) else reply._values()[0]
        return self.replies[question]

    def begin(self):
        self.in_round, self.handled = True, None

    def end(self):
        self.replies, self.in_round = {}, False

    def own(self, value):
        """A value that asks this session."""
        value.session = self
        return value


def _first(values):
    return next(iter(values), None)


def _only_value(values):
    return _first([value for _, value in values])


# What a processor is handed.


class Elements:
    """Questions about elements (javax.lang.model.util.Elements)."""

    def __init__(self, session):
        self._ask = session.ask

    def type_element(self, name):
        """The type with this canonical name, or None."""
        return _first(self._ask(Ask.TypeElement(name)))

    def package_element(self, name):
        """The package with this name, or None."""
        return _first(self._ask(Ask.PackageElement(name)))

    def package_of(self, element):
        return _first(self._ask(Ask.PackageOf(element)))

    def doc_comment(self, element):
        return element.doc_comment

    def all_annotation_mirrors(self, element):
        return element.all_annotation_mirrors

    def element_values_with_defaults(self, annotation):
        return annotation.values_with_defaults

    def all_members(self, element):
        """The members of a type, and then those that it inherits."""
        return self._ask(Ask.AllMembers(element))

    def overrides(self, overrider, overridden, in_type):
        """Whether the first method, as a member of the type, overrides the second."""
        return self._ask(Ask.Overrides(overrider, overridden, in_type))


class Types:
    """Questions about types (javax.lang.model.util.Types)."""

    def __init__(self, session):
        self._ask, self._own = session.ask, session.own

    def as_element(self, mirror):
        """The element of a declared type or a type variable; None for any other type."""
        return _first(self._ask(Ask.AsElement(mirror)))

    def is_same_type(self, one, other):
        return self._ask(Ask.SameType(one, other))

    def is_subtype(self, one, other):
        return self._ask(Ask.Subtype(one, other))

    def is_assignable(self, one, other):
        return self._ask(Ask.Assignable(one, other))

    def contains(self, one, other):
        """Whether the first type, as a type argument, contains the second."""
        return self._ask(Ask.Contains(one, other))

    def is_subsignature(self, one, other):
        return self._ask(Ask.Subsignature(one, other))

    def direct_supertypes(self, mirror):
        """The superclass first."""
        return self._ask(Ask.DirectSupertypes(mirror))

    def erasure(self, mirror):
        return _first(self._ask(Ask.Erasure(mirror)))

    def boxed_class(self, mirror):
        """The type that boxes a primitive one. It is a type, and no element: the class may be declared nowhere."""
        return _first(self._ask(Ask.Boxed(mirror)))

    def unboxed_type(self, mirror):
        return _first(self._ask(Ask.Unboxed(mirror)))

    def as_member_of(self, container, element):
        """The type of a member as it is in this type."""
        return _first(self._ask(Ask.MemberType(container, element)))

    def declared_type(self, element, *arguments):
        return _first(self._ask(Ask.DeclaredType(element, arguments)))

    def array_type(self, component):
        return _first(self._ask(Ask.ArrayType(component)))

    # These ask nothing.

    def primitive_type(self, kind):
        return self._own(PrimitiveType(kind))

    def wildcard_type(self, extends_bound=None, super_bound=None):
        return self._own(WildcardType((extends_bound, super_bound)))

    def null_type(self):
        return self._own(NullType())

    def no_type(self, kind=TypeKind.NONE):
        """No type, or void by `TypeKind.VOID`."""
        return self._own(VoidType() if kind is TypeKind.VOID else NoType())


class Filer:
    """Creates files (javax.annotation.processing.Filer). The content is bytes, or a text that is written in UTF-8.

    The origins are the elements from which a file is made. A file that is not accepted raises FilerException.
    """

    def __init__(self, session):
        self._session = session

    def create_source(self, name, content, *origins):
        """The source of the type, or of the `package-info`, with this name."""
        self._create(name, Child.CreateSource(name, _encoded(content), origins))

    def create_resource(self, relative, content, *origins, package="", location=Location.CLASS_OUTPUT):
        """A file at this name, relative to the package."""
        self._create(relative, Child.CreateResource(location, package, relative, _encoded(content), origins))

    def create_class(self, name, content, *origins):
        """A class file; no host supports it yet."""
        self._create(name, Child.CreateClass(name, _encoded(content), origins))

    def _create(self, name, frame):
        answer = self._session.exchange(frame).answer
        if answer is not Answer.ACCEPTED:
            raise FilerException(name, answer)


def _encoded(content):
    return content.encode() if isinstance(content, str) else bytes(content)


class Messager:
    """Prints messages (javax.annotation.processing.Messager), at an element if there is one.

    After a round with an error comes the last one, and nothing is published.
    """

    def __init__(self, session):
        self._session = session

    def print_message(self, kind, text, element=None):
        self._session.exchange(Child.Message(kind, element, text))

    def error(self, text, element=None):
        self.print_message(MessageKind.ERROR, text, element)

    def warning(self, text, element=None):
        self.print_message(MessageKind.WARNING, text, element)

    def mandatory_warning(self, text, element=None):
        self.print_message(MessageKind.MANDATORY_WARNING, text, element)

    def note(self, text, element=None):
        self.print_message(MessageKind.NOTE, text, element)


class Handled(tuple):
    """Elements of a round. The one that a loop over them has reached is the one that the processor handles."""

    def __new__(cls, session, elements):
        handled = super().__new__(cls, elements)
        handled.session = session
        return handled

    def __iter__(self):
        before = self.session.handled
        for element in super().__iter__():
            self.session.handled = element
            yield element
        self.session.handled = before


class RoundEnvironment:
    """A round: its number, whether it is the last, whether the one before had an error, and its root elements."""

    def __init__(self, session, frame):
        self._session = session
        self.number, self.processing_over, self.error_raised = frame.number, frame.over, frame.error
        self.roots = Handled(session, [session.own(Element(unit, ())) for unit in frame.roots])

    def elements_annotated_with(self, name):
        """The elements of the roots on which the annotation with this canonical name is present."""
        return Handled(self._session, self._session.ask(Ask.AnnotatedWith(name)))


class Processor:
    """A processor. A class of its own says what it supports, and has `process`.

    Before `init` it has its `name`, the `level` of the language, and `elements`, `types`, `filer` and `messager`.
    """

    # The canonical names of the annotations that it supports, or `p.*`, or `*`; the names of the options that it
    # supports; and whether it claims what it is offered: where that varies, `process` says it by what it returns.
    supports = ()
    options = ()
    claim = Claim.ALWAYS

    def init(self):
        """Is called once, when the host has said which build it is. Nothing can be asked here."""

    def process(self, annotations, round):
        """Is called in each round that the processor is shown, with the names of the annotations that it is offered."""
        raise NotImplementedError(f"{type(self).__name__} has no process")

    def option(self, key, default=None):
        """The value of an option of the build."""
        return self._options.get(key, default)


# The loop that runs a processor.


def run(processor):
    """Runs a class of processors over the standard streams, until the host closes them.

    The streams are then those of the frames: what is printed goes to the standard error, and nothing can be read.
    """
    session = Session(*_take_streams())
    try:
        talk(processor(), session)
    except BrokenPipeError:
        # The host has ended, or has refused the build, and says so itself.
        sys.exit(1)


def talk(processor, session):
    """Runs a processor in a session, until that ends."""
    init = session.read()
    if init is None:
        return
    if not isinstance(init, Host.Init):
        raise HostFault(f"the host sent {init!r} first")
    processor.name, processor.level, processor._options = init.name, init.level, dict(init.options)
    processor.elements, processor.types = Elements(session), Types(session)
    processor.filer, processor.messager = Filer(session), Messager(session)
    processor.init()
    session.send(_hello(processor))
    while True:
        frame = session.read()
        if frame is None:
            return
        if not isinstance(frame, Host.Round):
            raise HostFault(f"the host sent {frame!r} where a round was to come")
        session.begin()
        claimed = _process(processor, session, frame)
        session.end()
        session.send(Child.Done(claimed))


def _process(processor, session, frame):
    """Hands a round to the processor, and gives whether it claims what it is offered."""
    claimed = False
    try:
        claimed = bool(processor.process(frame.offered, RoundEnvironment(session, frame)))
    except (HostFault, BrokenPipeError):
        raise
    except Exception as failure:  # pylint: disable=broad-except
        traceback.print_exc()
        _report(session, failure)
    return claimed if processor.claim is Claim.VARIES else processor.claim is Claim.ALWAYS


def _report(session, failure):
    """Prints an error of the processor, at the element that it was handling."""
    text = f"{type(failure).__name__}: {failure}".encode(errors="backslashreplace").decode()
    try:
        Messager(session).error(text, session.handled)
    except Refused:
        Messager(session).error(text)


def _hello(processor):
    patterns = _listed(processor.supports)
    for pattern in patterns:
        if not is_pattern(pattern):
            raise ValueError(f"{pattern!r} is neither the name of an annotation nor p.* nor *")
    return Child.Hello(patterns, _listed(processor.options), processor.claim)


def _listed(names):
    return (names,) if isinstance(names, str) else tuple(names)


def _take_streams():
    """Copies of the standard input and output. In their places come an empty input, and the standard error."""
    source, sink = os.fdopen(os.dup(0), "rb"), os.fdopen(os.dup(1), "wb", buffering=0)
    nothing = os.open(os.devnull, os.O_RDONLY)
    os.dup2(nothing, 0)
    os.close(nothing)
    os.dup2(2, 1)
    sys.stdout.flush()
    sys.stdout = sys.stderr
    return source, sink
