#!/usr/bin/env python3
"""Tests the kit for processors in Python, kits/python/dinxobhe.py. It needs no program of the host.

    tests/kit.py [CASE..]

The frames of the tables of cases and of docs/PROTOCOL.md are read and spelled, each question is asked of a host that
the test plays, and processors run over pipes. The words are those of unittest.
"""
import io
import os
import re
import subprocess
import sys
import tempfile
import threading
import unittest
import urllib.parse

HERE = os.path.dirname(os.path.abspath(__file__))
ROOT = os.path.dirname(HERE)
KIT = os.path.join(ROOT, "kits", "python")
sys.path.insert(0, KIT)
sys.dont_write_bytecode = True

from dinxobhe import (  # noqa: E402
    FRAMES, AnnotationValue, Answer, ArrayType, Ask, BadFrame, Child, Claim, DeclaredType, Element, ElementKind,
    Elements, ErrorType, ExecutableType, Filer, FilerException, Host, HostFault, Location, MessageKind, Messager,
    Modifier, NoType, NullType, PackageType, PrimitiveType, Reason, Refused, RoundEnvironment, Session, TypeKind,
    TypeMirror, TypeVariable, Types, ValueKind, VoidType, WildcardType, is_pattern, read, spell)

SECONDS = 60


def lines_of(*path):
    with open(os.path.join(ROOT, *path), encoding="utf-8") as file:
        return file.read().splitlines()


def rows(table):
    """The calls of a table of cases, in words, each with what it gives."""
    for line in lines_of("cases", "tables", table):
        if line and not line.startswith("#"):
            call, _, result = line.partition(" = ")
            yield expanded(call).split(" "), expanded(result)


def expanded(text):
    """A text in which `%(12*ab)` is written out."""
    return re.sub(r"%\((\d+)\*([^)]*)\)", lambda found: int(found[1]) * found[2], text)


def by_hand(digits):
    return bytes.fromhex("".join(digits))


def name_of(frame):
    """What the tables call a frame."""
    name = type(frame).__name__
    if isinstance(frame, (Host.Created, Host.Refused)):
        what = frame.answer if isinstance(frame, Host.Created) else frame.reason
        return f"{name}({what.name.title().replace('_', '')})"
    return f"Ask({name})" if frame.tag >= 80 else name


def fault_of(data):
    """Where bytes are bad, in the words of the tables, or None."""
    try:
        read(data)
    except BadFrame as fault:
        return f"Bad({fault.place},{fault.kind})"
    return None


# The examples of docs/PROTOCOL.md: frames by name, bad bytes, and the exchange.


def frames_of_protocol():
    for line in lines_of("docs", "PROTOCOL.md"):
        found = re.fullmatch(r"    ([A-Z]\w+) +([0-9a-f ]+)", line)
        if found:
            yield found[1], by_hand(found[2])


def bad_bytes_of_protocol():
    for line in lines_of("docs", "PROTOCOL.md"):
        found = re.fullmatch(r"\| [^|]+ \| `([0-9a-f ]+)` \| (\d+) \| (\w+) \| .* \|", line)
        if found:
            yield by_hand(found[1]), f"Bad({found[2]},{found[3]})"


def exchange_of_protocol():
    """Who says which bytes, in order."""
    text = "\n".join(lines_of("docs", "PROTOCOL.md"))
    lines = text.split("```\n")[1].splitlines()
    return [(sender, name, by_hand(digits)) for sender, name, *digits in map(str.split, lines)]


class FramesAreReadAndSpelled(unittest.TestCase):
    """Each frame that the tables and the document have is read, and spelled as the same bytes."""

    def spelled_again(self, data):
        frame = read(data)
        self.assertEqual(spell(frame), data)
        return frame

    def test_rows_of_frames(self):
        seen = set()
        for (call, *digits), result in rows("frame_cases"):
            name, _, again = result.partition(" ")
            if call != "again" or result == "not a case":
                continue
            with self.subTest(bytes=" ".join(digits)):
                if name == "none":
                    self.assertIsNotNone(fault_of(by_hand(digits)))
                else:
                    frame = self.spelled_again(by_hand(digits))
                    self.assertEqual((name_of(frame), spell(frame).hex()), (name, again))
                    seen.add(frame.tag)
        self.assertEqual(seen, set(FRAMES))

    def test_rows_of_formats(self):
        for (call, *words), result in rows("format_cases"):
            with self.subTest(call=call, words=words):
                if call == "read":
                    data = by_hand(words if words != ["-"] else [])
                    data = len(data).to_bytes(4, "big") + data
                    if result == "none":
                        self.assertIsNotNone(fault_of(data))
                    else:
                        self.assertEqual(words_of_child_frame(self.spelled_again(data)), result)
                elif call == "encode" and result != "TooLarge" or (call == "copy" and words[0] == "frame"):
                    self.spelled_again(by_hand(result.split(" ")[0]))
                elif call == "is_pattern":
                    self.assertEqual(is_pattern(urllib.parse.unquote(words[0])), result == "yes")

    def test_replies_of_answers(self):
        for _, result in rows("answer_cases"):
            words, _, digits = result.rpartition(" : ")
            if words:
                with self.subTest(reply=words):
                    self.assertEqual(reply_words(self.spelled_again(by_hand(digits))), words)

    def test_frames_of_the_document(self):
        seen = set()
        for name, data in frames_of_protocol():
            with self.subTest(frame=name, bytes=data.hex()):
                frame = self.spelled_again(data)
                self.assertEqual(type(frame).__name__, name)
                seen.add(frame.tag)
        self.assertEqual(seen, set(FRAMES))

    def test_more_values_than_may_be_nested(self):
        truth = AnnotationValue(ValueKind.BOOLEAN, True)
        for frame in [Host.Values((("n", AnnotationValue(ValueKind.ARRAY, (truth,) * 300)),) * 2),
                      Host.Mirrors((ArrayType(PrimitiveType(TypeKind.INT)),) * 300)]:
            self.assertEqual(read(spell(frame)), frame)

    def test_a_repeated_frame_is_the_same(self):
        for _, data in frames_of_protocol():
            self.assertEqual((read(data), hash(read(data))), (read(data), hash(read(data))))
        self.assertNotEqual(ErrorType("p"), PackageType("p"))


class BadBytesAreRefused(unittest.TestCase):
    """What is no frame is refused, with the place of its first bad byte and the kind of the fault."""

    def test_rows_of_one_frame(self):
        for (call, *digits), result in rows("frame_cases"):
            if call == "begun":
                with self.subTest(bytes=" ".join(digits)[:80]):
                    wanted = result.split(" ")[1]
                    self.assertEqual(fault_of(by_hand(digits)), wanted if wanted.startswith("Bad") else None)

    def test_rows_of_streams(self):
        for (call, *digits), result in rows("frame_cases"):
            if call in ("feed", "pieces") and result != "not a case":
                data = by_hand(digits[call == "pieces":] if digits != ["-"] else [])
                with self.subTest(bytes=data.hex()[:80]):
                    self.assertEqual(self.answers(data), self.up_to_the_first_bad_one(result))

    def answers(self, data):
        """What the frames of a stream are, each with the number of bytes at its end, and how many bytes are left."""
        at, said = 0, []
        while len(data) - at >= 4:
            length = int.from_bytes(data[at:at + 4], "big")
            fault = fault_of(data[at:at + 4 + length])
            if fault and (len(data) - at >= 4 + length or "Length" in fault):
                place = int(re.search(r"\d+", fault)[0])
                return said + [f"{at + place + 1}:{fault}"]
            if len(data) - at < 4 + length:
                break
            frame = read(data[at:at + 4 + length])
            at += 4 + length
            said.append(f"{at}:{type(frame).__name__}")
        return said + [f"waiting {len(data) - at}"]

    @staticmethod
    def up_to_the_first_bad_one(result):
        said = re.findall(r"\d+:[^ ]+|waiting \d+", result)
        bad = [number for number, each in enumerate(said) if "Bad" in each]
        return said[:bad[0] + 1] if bad else said

    def test_bad_bytes_of_the_document(self):
        found = list(bad_bytes_of_protocol())
        self.assertGreater(len(found), 10)
        for data, wanted in found:
            with self.subTest(bytes=data.hex()):
                self.assertEqual(fault_of(data), wanted)

    def test_a_bound_that_is_not_there(self):
        self.assertEqual(fault_of(by_hand("00000005 6a 05 01 00 08")), "Bad(7,Field)")

    def test_what_is_said_of_a_fault(self):
        with self.assertRaisesRegex(BadFrame, "^bad field, at byte 5 of the frame$"):
            read(by_hand("000000024102"))

    def test_what_no_frame_can_say(self):
        deep = PrimitiveType(TypeKind.INT)
        for _ in range(256):
            deep = ArrayType(deep)
        for frame in [Child.Hello(["a*"], [], Claim.ALWAYS), Child.Hello(["a.B", "a.B"], [], Claim.ALWAYS),
                      Child.Message(0, None, "no kind"), Child.CreateSource("\ud800", b"", []), Ask.Erasure(deep),
                      Ask.Erasure(WildcardType((ErrorType("A"), ErrorType("B")))), Ask.Info(Element("p.C", [65_536]))]:
            with self.subTest(frame=type(frame).__name__), self.assertRaises(ValueError):
                spell(frame)
        with self.assertRaises(TypeError):
            Child.Done()


# Frames of a child in the words of the table of formats.


def words_of_child_frame(frame):
    name = type(frame).__name__.replace("Create", "").lower()
    shown = {"claim": lambda claim: claim.name.title(), "claimed": yes_or_no, "content": bytes.hex, "kind": number_word,
             "location": number_word, "element": lambda element: str(element or "none"), "patterns": list_word,
             "options": list_word, "origins": list_word}
    words = [f"{field}={shown.get(field, str)(getattr(frame, field)) or '-'}" for field in frame.forms]
    return " ".join([name, *words])


def number_word(item):
    return str(item.value)


def list_word(items):
    return ",".join(map(str, items)) or "[]"


def yes_or_no(truth):
    return "yes" if truth else "no"


# Questions and replies in the words of the table of answers, whose head describes them.


BARE = {"nothing": NoType, "void": VoidType, "null": NullType}


def element_of(word):
    unit, *path = word.split(":")
    return Element("" if unit == "-" else unit, tuple(map(int, path)))


def mirror_of(word):
    pieces = iter(word.split("/"))
    mirror = next_mirror(pieces)
    assert not list(pieces), word
    return mirror


def next_mirror(pieces):
    piece = next(pieces)
    word, _, of = piece.partition("=")
    names = {kind.name.lower(): kind for kind in TypeKind}
    if piece in names and names[piece].is_primitive:
        return PrimitiveType(names[piece])
    if piece == "[]":
        return ArrayType(next_mirror(pieces))
    if piece in ("?", "?extends", "?super"):
        bound = None if piece == "?" else next_mirror(pieces)
        return WildcardType((bound, None) if piece == "?extends" else (None, bound))
    if piece in BARE:
        return BARE[piece]()
    if word in ("error", "package"):
        return (ErrorType if word == "error" else PackageType)(urllib.parse.unquote(of))
    if word == "variable":
        return TypeVariable(element_of(of))
    if word == "executable":
        return next_executable(pieces, *of.split("<"))
    name, _, arguments = (of if word == "within" else piece).partition("<")
    enclosing = next_mirror(pieces) if word == "within" else None
    return DeclaredType(element_of(name), enclosing, next_mirrors(pieces, arguments or 0))


def next_mirrors(pieces, count):
    return tuple([next_mirror(pieces) for _ in range(int(count))])


def next_executable(pieces, variables, parameters, thrown):
    variables = tuple(element_of(each) for each in variables.split("+") if each != "-")
    parameters, result = next_mirrors(pieces, parameters), next_mirror(pieces)
    return ExecutableType(variables, parameters, result, next_mirrors(pieces, thrown))


def question_of(row, words):
    """A question of the table. Its fields are elements, texts, types and numbers, as its form says."""
    question, values = getattr(Ask, row), []
    for name in question.forms:
        if name == "name":
            values.append("" if words[0] == "-" else urllib.parse.unquote(words[0]))
        elif name == "arguments":
            values.append(tuple(map(mirror_of, words)))
            words = [""]
        elif name == "annotation":
            values.append(int(words[0]))
        else:
            values.append((mirror_of if name in ("one", "other", "mirror", "container") else element_of)(words[0]))
        words = words[1:]
    return question(*values)


def quoted(text, more=""):
    if text == "":
        return "-"
    kept = "".join(chr(number) for number in range(33, 127) if chr(number) not in "#%&'/\\^`~" + more)
    return urllib.parse.quote(text, safe=kept).replace("~", "%7E")


def mirror_words(mirror):
    kind = type(mirror)
    if kind is PrimitiveType:
        return mirror.kind.name.lower()
    if kind is ArrayType:
        return f"[]/{mirror_words(mirror.component_type)}"
    if kind is WildcardType:
        if mirror.extends_bound is not None:
            return f"?extends/{mirror_words(mirror.extends_bound)}"
        return "?" if mirror.super_bound is None else f"?super/{mirror_words(mirror.super_bound)}"
    if kind is ErrorType:
        return f"error={quoted(mirror.name)}"
    if kind is PackageType:
        return f"package={mirror.name}"
    if kind is TypeVariable:
        return f"variable={mirror.element}"
    if kind is ExecutableType:
        variables = "+".join(map(str, mirror.type_variables)) or "-"
        head = f"executable={variables}<{len(mirror.parameter_types)}<{len(mirror.thrown_types)}"
        return "/".join([head, *map(mirror_words, [*mirror.parameter_types, mirror.return_type, *mirror.thrown_types])])
    if kind is DeclaredType:
        within = [] if mirror.enclosing_type is None else [mirror.enclosing_type]
        count = f"<{len(mirror.type_arguments)}" if mirror.type_arguments else ""
        head = f"{'within=' if within else ''}{mirror.element}{count}"
        return "/".join([head, *map(mirror_words, [*within, *mirror.type_arguments])])
    return next(word for word, bare in BARE.items() if bare is kind)


def value_words(value):
    kind, of = value.kind, value.value
    if kind is ValueKind.BOOLEAN:
        return "true" if of else "false"
    if kind is ValueKind.ARRAY:
        return f"array[{';'.join(map(value_words, of))}]"
    if kind is ValueKind.ANNOTATION:
        return annotation_words(of)
    if kind in (ValueKind.STRING, ValueKind.OTHER, ValueKind.FLOATING):
        return f"{'text' if kind is ValueKind.STRING else kind.name.lower()}:{quoted(of, ';)]')}"
    shown = {ValueKind.CHAR: ord, ValueKind.CLASS: mirror_words}
    return f"{kind.name.lower()}:{shown.get(kind, str)(of)}"


def annotation_words(annotation):
    values = ";".join(f"{name}={value_words(value)}" for name, value in annotation.element_values)
    return f"@{mirror_words(annotation.annotation_type)}({values})"


def modifiers_of(info):
    return [modifier for modifier in Modifier if info.modifiers & 1 << modifier.value]


def reply_words(reply):
    name = type(reply).__name__.lower()
    if isinstance(reply, Host.Refused):
        return f"{name} {reply.reason.name.title().replace('_', '')}"
    if isinstance(reply, Host.Truth):
        return f"{name} {yes_or_no(reply.truth)}"
    if isinstance(reply, Host.Info):
        modifiers = [modifier.name.lower() for modifier in modifiers_of(reply)]
        return " ".join([name, reply.kind.name.lower(), "+".join(modifiers) or "none", quoted(reply.simple),
                         quoted(reply.canonical), "varargs" if reply.varargs else "fixed"])
    shown = {"elements": str, "texts": lambda text: "%6Eone" if text == "none" else quoted(text),
             "annotations": annotation_words, "mirrors": mirror_words,
             "values": lambda value: f"{value[0]}={value_words(value[1])}"}
    return " ".join([name, *(map(shown[name], getattr(reply, name)) if getattr(reply, name) else ["none"])])


# Questions, each by the call of the kit that asks it.


def all_of(reply):
    """What a reply with one field says."""
    field, = reply.forms
    return getattr(reply, field)


def one(reply):
    return next(iter(all_of(reply)), None)


def only_value(reply):
    return reply.values[0][1] if reply.values else None


CALLS = {
    "TypeElement": (lambda kit, q: kit.elements.type_element(q.name), one),
    "PackageElement": (lambda kit, q: kit.elements.package_element(q.name), one),
    "Info": (lambda kit, q: (q.element.is_var_args, q.element.modifiers, q.element.kind),
             lambda reply: (reply.varargs, set(modifiers_of(reply)), reply.kind)),
    "Enclosing": (lambda kit, q: q.element.enclosing_element, one),
    "Enclosed": (lambda kit, q: q.element.enclosed_elements, all_of),
    "TypeParameters": (lambda kit, q: q.element.type_parameters, all_of),
    "Parameters": (lambda kit, q: q.element.parameters, all_of),
    "PackageOf": (lambda kit, q: kit.elements.package_of(q.element), one),
    "DocComment": (lambda kit, q: kit.elements.doc_comment(q.element), one),
    "Annotations": (lambda kit, q: q.element.annotation_mirrors, all_of),
    "AllAnnotations": (lambda kit, q: kit.elements.all_annotation_mirrors(q.element), all_of),
    "DefaultValue": (lambda kit, q: q.element.default_value, only_value),
    "ConstantValue": (lambda kit, q: q.element.constant_value, only_value),
    "AllMembers": (lambda kit, q: kit.elements.all_members(q.element), all_of),
    "Overrides": (lambda kit, q: kit.elements.overrides(q.overrider, q.overridden, q.in_type), all_of),
    "TypeOf": (lambda kit, q: q.element.as_type(), one),
    "Superclass": (lambda kit, q: q.element.superclass, one),
    "Interfaces": (lambda kit, q: q.element.interfaces, all_of),
    "Bounds": (lambda kit, q: q.element.bounds, all_of),
    "SameType": (lambda kit, q: kit.types.is_same_type(q.one, q.other), all_of),
    "Subtype": (lambda kit, q: kit.types.is_subtype(q.one, q.other), all_of),
    "Assignable": (lambda kit, q: kit.types.is_assignable(q.one, q.other), all_of),
    "Contains": (lambda kit, q: kit.types.contains(q.one, q.other), all_of),
    "Subsignature": (lambda kit, q: kit.types.is_subsignature(q.one, q.other), all_of),
    "DirectSupertypes": (lambda kit, q: kit.types.direct_supertypes(q.mirror), all_of),
    "Erasure": (lambda kit, q: kit.types.erasure(q.mirror), one),
    "Boxed": (lambda kit, q: kit.types.boxed_class(q.mirror), one),
    "Unboxed": (lambda kit, q: kit.types.unboxed_type(q.mirror), one),
    "MemberType": (lambda kit, q: kit.types.as_member_of(q.container, q.element), one),
    "AsElement": (lambda kit, q: kit.types.as_element(q.mirror), one),
    "PrintType": (lambda kit, q: str(q.mirror), one),
    "DeclaredType": (lambda kit, q: kit.types.declared_type(q.element, *q.arguments), one),
    "ArrayType": (lambda kit, q: kit.types.array_type(q.mirror), one),
    "AnnotatedWith": (lambda kit, q: kit.round.elements_annotated_with(q.name), all_of),
}


class Kit:
    """What a processor is handed, over a host that answers a question by the bytes that `answers` has for it."""

    def __init__(self, answers):
        self.answers, self.asked = answers, []
        self.source, self.sink = io.BytesIO(), self
        self.session = Session(self.source, self)
        self.session.begin()
        self.elements, self.types = Elements(self.session), Types(self.session)
        self.filer, self.messager = Filer(self.session), Messager(self.session)
        self.round = RoundEnvironment(self.session, Host.Round(1, False, False, (), ()))

    def write(self, data):
        """Takes what the kit sends, and has the host's answer read next."""
        self.asked.append(bytes(data))
        at = self.source.tell()
        self.source.write(self.answers[bytes(data)])
        self.source.seek(at)
        return len(data)

    def flush(self):
        pass

    def own(self, element):
        return self.session.own(element)


class QuestionsAreAsked(unittest.TestCase):
    """Each call of the kit asks its question once in a round, and gives what the host answers."""

    def test_rows_of_answers(self):
        asked = set()
        for (call, *words), result in rows("answer_cases"):
            if call == "ask" and words[0] in CALLS:
                with self.subTest(question=" ".join(words)[:100]):
                    self.asks(question_of(words[0], words[1:]), by_hand(result.rpartition(" : ")[2]))
                    asked.add(words[0])
        self.assertEqual(asked, set(CALLS))
        left = {name for name in vars(Ask) if not name.startswith("_")} - asked
        self.assertEqual(left, {"ValuesWithDefaults", "Roots"})

    def asks(self, question, answer):
        """The call of this question sends it, once, and gives this answer."""
        call, part = CALLS[type(question).__name__]
        sent, reply = spell(question), read(answer)
        kit = Kit({sent: answer})
        for name in question.forms:
            if isinstance(getattr(question, name), (Element, TypeMirror)):
                kit.own(getattr(question, name))
        if isinstance(reply, Host.Refused):
            with self.assertRaises(Refused) as caught:
                call(kit, question)
            self.assertEqual((caught.exception.reason, caught.exception.frame), (reply.reason, question))
        else:
            for _ in range(2):
                self.assertEqual(call(kit, question), part(reply))
        self.assertEqual(kit.asked, [sent])

    def test_names_that_a_reference_has(self):
        """What is read of an element without asking is what the host says of it."""
        for (call, *words), result in rows("answer_cases"):
            reply = read(by_hand(result.rpartition(" : ")[2])) if call == "ask" else None
            if call == "ask" and words[0] == "Info" and isinstance(reply, Host.Info) and ":" not in words[1]:
                with self.subTest(element=words[1]):
                    element = element_of(words[1])
                    self.assertEqual((element.qualified_name, element.simple_name), (reply.canonical, reply.simple))
                    self.assertEqual(element.is_package, reply.kind is ElementKind.PACKAGE)

    def test_values_with_defaults(self):
        """Values are asked for by the number of the annotation among those of its element."""
        for (call, *words), result in rows("answer_cases"):
            reply = read(by_hand(result.rpartition(" : ")[2])) if call == "ask" else None
            if call == "ask" and words[0] == "ValuesWithDefaults" and isinstance(reply, Host.Values):
                with self.subTest(question=" ".join(words)):
                    question = question_of(words[0], words[1:])
                    annotations = Host.Annotations([annotation("q.N")] * question.annotation + [annotation("q.A")])
                    kit = Kit({spell(Ask.AllAnnotations(question.element)): spell(annotations),
                               spell(question): spell(reply)})
                    found = kit.own(question.element).annotation("q.A")
                    self.assertEqual(kit.elements.element_values_with_defaults(found), dict(reply.values))
                    self.assertEqual([found[name] for name, _ in reply.values],
                                     [value.value for _, value in reply.values])
                    self.assertEqual(len(kit.asked), 2)

    def test_a_nested_annotation_has_defaults_too(self):
        unit = Element("q.A", ())
        methods = [Element("q.A", (0,)), Element("q.A", (1,))]
        one_value = read(by_hand("00000013 14 00000001 00000000 01 03 0000000000000003"))
        kit = Kit({spell(Ask.Enclosed(unit)): spell(Host.Elements(methods)),
                   **{spell(Ask.Info(method)): spell(Host.Info(ElementKind.METHOD, 0, name, "", False))
                      for method, name in zip(methods, "nm")},
                   spell(Ask.DefaultValue(methods[1])): spell(one_value)})
        nested = read(spell(Host.Annotations([annotation("q.A", n=True)])), kit.session).annotations[0]
        self.assertEqual((nested["n"], nested["m"]), (True, 3))

    def test_a_new_round_asks_anew(self):
        question = Ask.Roots()
        kit = Kit({spell(question): spell(Host.Elements(()))})
        self.assertEqual([kit.session.ask(question), kit.session.ask(question)], [(), ()])
        self.assertEqual(len(kit.asked), 1)
        kit.session.end()
        kit.session.begin()
        kit.session.ask(question)
        self.assertEqual(len(kit.asked), 2)
        kit.session.end()
        with self.assertRaisesRegex(RuntimeError, "in rounds alone"):
            kit.session.ask(question)

    def test_types_that_ask_nothing(self):
        kit = Kit({})
        extends = kit.types.wildcard_type(kit.types.primitive_type(TypeKind.INT))
        self.assertEqual(mirror_words(extends), "?extends/int")
        self.assertEqual(mirror_words(kit.types.wildcard_type(super_bound=kit.types.null_type())), "?super/null")
        self.assertEqual([mirror_words(kit.types.no_type()), mirror_words(kit.types.no_type(TypeKind.VOID))],
                         ["nothing", "void"])

    def test_an_element_of_no_host_asks_nothing(self):
        with self.assertRaisesRegex(RuntimeError, "can ask none"):
            Element("p.C", ()).kind  # pylint: disable=expression-not-assigned

    def test_creations_and_messages(self):
        accepted, noted = by_hand("000000021700"), by_hand("0000000118")
        frames = [(name, data) for name, data in frames_of_protocol() if data[4] in range(66, 70)]
        kit = Kit({data: noted if name == "Message" else accepted for name, data in frames})
        element = Element("p.C", (1, 258))
        kit.filer.create_source("p.G", "hi")
        kit.filer.create_resource("x", b"hi", package="p", location=Location.SOURCE_OUTPUT)
        kit.filer.create_class("p.G", by_hand("cafebabe"))
        kit.messager.note("note")
        kit.filer.create_source("p.G", "hi", element)
        kit.messager.warning("odd", element)
        self.assertEqual(kit.asked, [data for _, data in frames])

    def test_a_file_that_is_not_created(self):
        sent = spell(Child.CreateSource("p.G", b"", []))
        for answer in list(Answer)[1:]:
            with self.assertRaisesRegex(FilerException, f"p.G is not created: {answer.name}") as caught:
                Kit({sent: spell(Host.Created(answer))}).filer.create_source("p.G", "")
            self.assertEqual((caught.exception.name, caught.exception.answer), ("p.G", answer))
        with self.assertRaisesRegex(Refused, r"^NO_SUCH: CreateSource\(name='p.G', content=b'', origins=\(\)\)$"):
            Kit({sent: spell(Host.Refused(Reason.NO_SUCH))}).filer.create_source("p.G", "")
        self.assertEqual(repr(Child.CreateSource("p.G", b"x" * 41, (Element("p.C", (1, 258)),))),
                         "CreateSource(name='p.G', content=41 bytes, origins=(<p.C:1:258>,))")

    def test_a_host_that_leaves_the_protocol(self):
        sent = spell(Ask.TypeElement("a"))
        for what, answer in {"another frame": spell(Host.Noted()), "a bad one": by_hand("00000002 16 02"),
                             "the end": b"", "a part of one": by_hand("00000002 16")}.items():
            with self.subTest(what=what), self.assertRaises(HostFault):
                Kit({sent: answer}).elements.type_element("a")


def annotation(name, **values):
    """The annotation with this name, and values that are truths."""
    element = f"{len(name):08x} {name.encode().hex()} 00000000"
    written = "".join(f"00000001 {key.encode().hex()} 00 {int(value):02x}" for key, value in values.items())
    data = by_hand(f"13 00000001 01 {element} 00 00000000 {len(values):08x} {written}")
    return read(len(data).to_bytes(4, "big") + data).annotations[0]


# Processors over pipes.

INIT = by_hand("00000010 01 00000005 6d616b6572 000b 00000000")
HELLO = by_hand("00000011 40 00000001 00000003 712e41 00000000 00")
ROUND = by_hand("0000001d 02 00000001 00 00 00000001 00000003 712e41 00000001 00000003 702e43")
LAST_ROUND = by_hand("0000000f 02 00000002 01 00 00000000 00000000")
DONE, NOT_CLAIMED = by_hand("00000002 41 01"), by_hand("00000002 41 00")
NOTED, ACCEPTED = by_hand("00000001 18"), by_hand("00000002 17 00")

MAKER = """
import os, sys
import dinxobhe

class Maker(dinxobhe.Processor):
    supports = "q.A"

    def process(self, annotations, round):
{}

dinxobhe.run(Maker)
"""


def maker(*lines):
    """The program of a processor of q.A with these lines in `process`."""
    return MAKER.format("\n".join(" " * 8 + line for line in lines))


def error(text, element=None):
    return spell(Child.Message(MessageKind.ERROR, element, text))


class Conversation(unittest.TestCase):
    def converses(self, program, exchange, status=0):
        """Plays the host's part of an exchange, and gives what the program says on its standard error."""
        with tempfile.TemporaryDirectory(prefix="apt-kit-") as folder:
            path = os.path.join(folder, "maker.py")
            with open(path, "w", encoding="utf-8") as file:
                file.write(program)
            environment = dict(os.environ, PYTHONPATH=KIT, PYTHONDONTWRITEBYTECODE="1")
            with subprocess.Popen([sys.executable, path], stdin=subprocess.PIPE, stdout=subprocess.PIPE,
                                  stderr=subprocess.PIPE, env=environment) as child:
                # A child that says nothing, or too little, is waited for so long.
                clock = threading.Timer(SECONDS, child.kill)
                clock.start()
                try:
                    self.play(child, exchange)
                    output, messages = child.communicate(timeout=SECONDS)
                finally:
                    clock.cancel()
        self.assertEqual((output, child.returncode), (b"", status), messages.decode())
        return messages.decode()

    def play(self, child, exchange):
        for sender, data in exchange:
            if sender == "host":
                child.stdin.write(data)
                child.stdin.flush()
            else:
                self.assertEqual(child.stdout.read(len(data)).hex(), data.hex())


class ProcessorsRun(Conversation):
    """The program of a processor says to each frame of a host what it should say, over pipes."""

    def in_round(self, *lines, said=(), done=DONE, hello=HELLO, program=None):
        """What a processor prints that says this, and answers, in round 1, and nothing in the last one."""
        exchange = [("host", INIT), ("child", hello), ("host", ROUND), *said, ("child", done), ("host", LAST_ROUND),
                    ("child", done)]
        return self.converses(program or maker("if round.processing_over: return", *lines), exchange)

    def test_the_exchange_of_the_document(self):
        program = maker('if round.number == 1:',
                        '    self.filer.create_source("p.D", "package p; @q.A class D {}")',
                        '    self.messager.note("made")')
        exchange = exchange_of_protocol()
        self.assertEqual(self.converses(program, [(sender, data) for sender, _, data in exchange]), "")
        for _, name, data in exchange:
            self.assertEqual(type(read(data)).__name__, name)

    def test_an_error_of_a_processor(self):
        said = [("child", error("ValueError: odd", Element("p.C", ()))), ("host", NOTED)]
        messages = self.in_round("for root in round.roots:", "    raise ValueError('odd')", said=said)
        self.assertIn("Traceback", messages)
        self.assertIn("maker.py", messages)
        self.assertIn("ValueError: odd", messages)

    def test_an_error_at_an_element_that_is_not_there(self):
        said = [("child", error("ValueError: odd", Element("p.C", ()))), ("host", by_hand("00000002 19 00")),
                ("child", error("ValueError: odd")), ("host", NOTED)]
        self.in_round("for root in round.roots:", "    raise ValueError('odd')", said=said)

    def test_an_error_of_a_processor_that_handles_no_element(self):
        said = [("child", error("ZeroDivisionError: division by zero")), ("host", NOTED)]
        self.in_round("for root in round.roots: pass", "1 / 0", said=said)

    def test_an_error_with_a_text_that_is_no_unicode(self):
        said = [("child", error("ValueError: \\udc80")), ("host", NOTED)]
        self.in_round("raise ValueError('\\udc80')", said=said)

    def test_what_a_processor_prints(self):
        lines = ["print('in the round')", "sys.stdout.flush()", "os.system('echo from a shell')",
                 "os.write(1, b'by hand')", "self.messager.note(repr(sys.stdin.read()))"]
        said = [("child", spell(Child.Message(MessageKind.NOTE, None, "''"))), ("host", NOTED)]
        messages = self.in_round(*lines, said=said)
        for text in ["in the round\n", "from a shell\n", "by hand"]:
            self.assertIn(text, messages)

    def test_a_file_that_exists(self):
        said = [("child", spell(Child.CreateSource("p.D", b"", []))), ("host", by_hand("00000002 17 01")),
                ("child", error("FilerException: p.D is not created: EXISTS")), ("host", NOTED)]
        self.in_round("self.filer.create_source('p.D', '')", said=said)

    def test_a_claim_that_varies(self):
        program = maker("return True").replace('"q.A"', '"q.A"; claim = dinxobhe.Claim.VARIES')
        hello = HELLO[:-1] + b"\2"
        self.in_round(program=program, hello=hello)
        self.in_round(program=program.replace("return True", "pass"), hello=hello, done=NOT_CLAIMED)

    def test_a_claim_that_is_never_made(self):
        program = maker("return True").replace('"q.A"', '"q.A"; claim = dinxobhe.Claim.NEVER')
        self.in_round(program=program, hello=HELLO[:-1] + b"\1", done=NOT_CLAIMED)

    def test_what_init_has(self):
        init = "    options = 'k'\n    def init(self): self.seen = [self.option('k'), self.option('l')]\n"
        program = maker("assert (self.name, self.level, self.seen) == ('m', 11, ['1', None])").replace(
            "    def process", init + "    def process")
        init = spell(Host.Init("m", 11, [("k", "1")]))
        self.converses(program, [("host", init), ("child", spell(Child.Hello(["q.A"], ["k"], Claim.ALWAYS))),
                                 ("host", LAST_ROUND), ("child", DONE)])

    def test_a_name_that_is_no_pattern(self):
        messages = self.converses(maker("pass").replace("q.A", "q.A*"), [("host", INIT)], status=1)
        self.assertIn("'q.A*' is neither the name of an annotation nor p.* nor *", messages)

    def test_a_processor_that_asks_before_a_round(self):
        init = "    def init(self): self.elements.type_element('a')\n"
        program = maker("pass").replace("    def process", init + "    def process")
        self.assertIn("the host answers in rounds alone", self.converses(program, [("host", INIT)], status=1))

    def test_a_host_that_ends(self):
        self.assertEqual(self.converses(maker("pass"), []), "")
        self.assertEqual(self.converses(maker("pass"), [("host", INIT), ("child", HELLO)]), "")
        messages = self.converses(maker("pass"), [("host", INIT), ("child", HELLO), ("host", ROUND[:-1])], status=1)
        self.assertIn("HostFault: the host has ended within a frame", messages)

    def test_a_host_that_ends_before_a_reply(self):
        note = ("child", spell(Child.Message(MessageKind.NOTE, None, "n")))
        messages = self.converses(maker("self.messager.note('n')"),
                                  [("host", INIT), ("child", HELLO), ("host", ROUND), note], status=1)
        self.assertIn("HostFault: the host has ended before it answered Message(", messages)

    def test_a_host_that_begins_with_a_round(self):
        self.assertIn("HostFault: the host sent Round", self.converses(maker("pass"), [("host", ROUND)], status=1))

    def test_a_frame_larger_than_a_pipe(self):
        content = b"x" * 1_000_000
        said = [("child", spell(Child.CreateResource(Location.CLASS_OUTPUT, "", "x", content, []))), ("host", ACCEPTED)]
        self.in_round("self.filer.create_resource('x', b'x' * 1_000_000)", said=said)


def block_of(beginning, *path):
    """The block of code in a document that begins so."""
    blocks = "\n".join(lines_of(*path)).split("```\n")[1::2]
    return next(block for block in blocks if block.startswith(beginning))


def round_of(number, offered, roots):
    return "host", spell(Host.Round(number, not roots, False, offered, roots))


def answered(question, reply):
    return [("child", spell(question)), ("host", spell(reply))]


def create(frame):
    """A creation, and that it is accepted."""
    return answered(frame, Host.Created(Answer.ACCEPTED))


class ProcessorsOfTheRepository(Conversation):
    """The processors of README and of examples, before a host that the test plays."""

    def test_the_processor_of_the_readme(self):
        program = block_of("import dinxobhe\n", "README.md")
        text = b"package hello; class WorldGreeting {}"
        self.assertIn(f"file SOURCE_OUTPUT/hello/WorldGreeting.java {len(text)}", lines_of("README.md"))
        hello = spell(Child.Hello(["hello.Greet"], [], Claim.ALWAYS))
        world, package = Element("hello.World", ()), Element("hello.package-info", ())
        self.converses(program, [
            ("host", spell(Host.Init("Greeter", 11, []))), ("child", hello),
            round_of(1, ["hello.Greet"], ["hello.World", "hello.package-info"]),
            *answered(Ask.AnnotatedWith("hello.Greet"), Host.Elements([world])),
            *answered(Ask.PackageOf(world), Host.Elements([package])),
            *create(Child.CreateSource("hello.WorldGreeting", text, [world])), ("child", DONE),
            round_of(2, [], ["hello.WorldGreeting"]),
            *answered(Ask.AnnotatedWith("hello.Greet"), Host.Elements([])), ("child", DONE),
            round_of(3, [], []), *answered(Ask.AnnotatedWith("hello.Greet"), Host.Elements([])), ("child", DONE)])

    def example(self, name, said):
        program = "\n".join(lines_of("examples", name, "maker.py"))
        self.assertEqual(self.converses(program, [("host", INIT), ("child", HELLO), *said]), "")

    def test_first(self):
        roots = Child.CreateResource(Location.CLASS_OUTPUT, "", "roots", b"p.C\np.D\n", [])
        self.example("first", [round_of(1, ["q.A"], ["p.C", "p.D"]), *create(roots), ("child", DONE),
                               round_of(2, [], []), ("child", DONE)])

    def test_generated(self):
        def says(kind, text):
            return [("child", spell(Child.Message(kind, None, text))), ("host", NOTED)]

        info = Child.CreateSource("p.CInfo", b"package p; @q.A class CInfo {}\n", [])
        other = Child.CreateSource("p.DInfo", b"package p; @q.A class DInfo {}\n", [])
        classes = Child.CreateResource(Location.CLASS_OUTPUT, "", "classes", b"p.C\np.D\np.CInfo\n", [])
        self.example("generated", [
            round_of(1, ["q.A"], ["p.C", "p.D"]), *create(info), *says(MessageKind.NOTE, "p.C has p.CInfo"),
            ("child", spell(other)), ("host", by_hand("00000002 17 01")),
            *says(MessageKind.WARNING, "p.DInfo is not made: EXISTS"), ("child", DONE),
            round_of(2, ["q.A"], ["p.CInfo"]), *says(MessageKind.WARNING, "nothing is made for p.CInfo"),
            ("child", DONE), round_of(3, [], []), *create(classes), ("child", DONE)])


if __name__ == "__main__":
    unittest.main()
