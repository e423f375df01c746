"""Frames for the scripts of tests and bench, spelled without the kit for processors, and also such as may not be sent.

docs/PROTOCOL.md says who sends which and when. A frame is a length in four bytes and then a tag and its fields, which
fill that length. Numbers have their big end first. Processors use kits/python, which tests/kit.py tests.
"""

# The tags of what the host sends, and of what a processor sends.
INIT, ROUND, ELEMENTS, CREATED, NOTED = 1, 2, 16, 23, 24
HELLO, DONE, CREATE_SOURCE, CREATE_RESOURCE, CREATE_CLASS, MESSAGE = 64, 65, 66, 67, 68, 69

# Questions: about a name, about an element, and one about nothing.
TYPE_ELEMENT, ANNOTATED_WITH, ASK_INFO, ENCLOSED, PARAMETERS, ROOTS = 80, 114, 82, 84, 86, 115

# The answers to a creation, the locations of a file, the kinds of a message, and the one claim.
ACCEPTED, EXISTS, UNSUPPORTED, BAD_NAME, TOO_LARGE = range(5)
CLASS_OUTPUT, SOURCE_OUTPUT, NATIVE_HEADER_OUTPUT = range(3)
ERROR, WARNING, MANDATORY_WARNING, NOTE, OTHER = range(5)
ALWAYS = 0

# The level of the language that Init names.
LEVEL = 11


# Fields.


def number_field(number):
    return number.to_bytes(4, "big")


def bytes_field(content):
    return number_field(len(content)) + content


def text_field(text):
    return bytes_field(text.encode())


def texts_field(texts):
    return number_field(len(texts)) + b"".join(text_field(text) for text in texts)


NO_OPTIONS = texts_field([])
NO_ORIGINS = number_field(0)
NO_ELEMENT = bytes([0])


def element_field(unit, *path):
    return text_field(unit) + number_field(len(path)) + b"".join(step.to_bytes(2, "big") for step in path)


def frame(tag, fields=b""):
    return bytes_field(bytes([tag]) + fields)


# What the host sends.


def init(name, options=()):
    """The first frame, with the values of options by their keys, which ascend."""
    pairs = sorted(dict(options).items(), key=lambda pair: pair[0].encode())
    fields = b"".join(text_field(key) + text_field(value) for key, value in pairs)
    return frame(INIT, text_field(name) + LEVEL.to_bytes(2, "big") + number_field(len(pairs)) + fields)


def round_frame(number, roots, offered=(), over=False, error=False):
    return frame(ROUND, number_field(number) + bytes([over, error]) + texts_field(offered) + texts_field(roots))


def elements(*units):
    """The reply with the types, or packages, that these units are."""
    return frame(ELEMENTS, number_field(len(units)) + b"".join(element_field(unit) for unit in units))


def created(answer):
    return frame(CREATED, bytes([answer]))


def noted():
    return frame(NOTED)


# What a processor sends.


def hello(pattern):
    return frame(HELLO, texts_field([pattern]) + NO_OPTIONS + bytes([ALWAYS]))


def done(claimed=True):
    return frame(DONE, bytes([claimed]))


def create_source(name, content, origins=NO_ORIGINS):
    return frame(CREATE_SOURCE, text_field(name) + bytes_field(content) + origins)


def create_resource(relative, content, package="", location=CLASS_OUTPUT, origins=NO_ORIGINS):
    place = bytes([location]) + text_field(package) + text_field(relative)
    return frame(CREATE_RESOURCE, place + bytes_field(content) + origins)


def create_class(name, content, origins=NO_ORIGINS):
    return frame(CREATE_CLASS, text_field(name) + bytes_field(content) + origins)


def message(kind, text, element=NO_ELEMENT):
    return frame(MESSAGE, bytes([kind]) + element + text_field(text))


def about_name(question, name):
    return frame(question, text_field(name))


def about_element(question, unit, *path):
    return frame(question, element_field(unit, *path))


# How fields are read.


class Fields:
    """Fields, read from the front."""

    def __init__(self, data):
        self.data = data
        self.at = 0

    def take(self, count):
        taken = self.data[self.at:self.at + count]
        if len(taken) < count:
            raise ValueError("the input or the frame ends inside a field")
        self.at += count
        return taken

    def byte(self):
        return self.take(1)[0]

    def number(self):
        return int.from_bytes(self.take(4), "big")

    def text(self):
        return self.take(self.number()).decode()

    def texts(self):
        return [self.text() for _ in range(self.number())]
