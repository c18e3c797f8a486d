"""Body parts of an interpersonal message (X.420): texts, files, messages, and others as the octets that they are."""
import re

import p22
import texts
import x690 as ber
from mail import heading
from mail.names import tags
from x690 import CONTEXT, UNIVERSAL, element, object_identifier, sequence, set_of, tagged

IA5_TEXT, TELETEX, MESSAGE, EXTENDED = (CONTEXT, 0), (CONTEXT, 5), (CONTEXT, 9), (CONTEXT, 15)
TEXT_PARAMETERS, TEXT_DATA = object_identifier(2, 6, 1, 11, 11), object_identifier(2, 6, 1, 4, 11)
GENERAL_STRING = (UNIVERSAL, 27)
ENVIRONMENT, USER_VISIBLE = (CONTEXT, 2), (CONTEXT, 3)
PAGE_END = "\f"
MOST_NESTED = 20  # messages within messages that are read


class Text:
    """A text, of lines that end with CR LF."""

    def __init__(self, text):
        self.text = text

    def octets(self):
        found = texts.general(self.text)
        if self.text.isascii():
            return tagged(0, set_of(), element(ber.IA5_STRING, self.text.encode("ascii")))
        numbers, octets = found
        parameters = p22.external(TEXT_PARAMETERS, set_of(*(ber.integer(it) for it in sorted(numbers))))
        data = p22.external(TEXT_DATA, element(GENERAL_STRING, octets))
        return tagged(15, element((CONTEXT, 0), ber.whole(parameters).contents, True), data)


class File:
    """A file transfer body part: octets, a name or none, and lines of RFC 2045 about them. The lines stand in the
    environment parameter of the file, as strings that a user sees."""

    def __init__(self, octets, name=None, lines=()):
        self.data, self.name, self.lines = octets, name, list(lines)

    def octets(self):
        visible = b"".join(element(p22.GRAPHIC_STRING, it.encode("ascii")) for it in self.lines)
        environment = tagged(2, tagged(3, visible)) if self.lines else b""
        pathname = tagged(4, tagged(0, element(p22.GRAPHIC_STRING, graphic(self.name)))) if self.name else b""
        data = p22.external(p22.FILE_DATA, sequence(element(p22.EXTERNAL, p22.UNSTRUCTURED + ber.primitive(
            1, self.data), True)))
        return tagged(15, tagged(0, p22.FILE_PARAMETERS + tagged(0, sequence(environment, pathname))), data)


class Message:
    """A message within a message: its heading and its parts, and when it was delivered, as a UTCTime or None."""

    def __init__(self, head, parts, delivered=None):
        self.heading, self.parts, self.delivered = head, parts, delivered

    def octets(self):
        moment = ber.primitive(0, self.delivered.encode("ascii")) if self.delivered else b""
        return tagged(9, set_of(moment), sequence(*contents_of(self.heading, self.parts)))


class Other:
    """A body part of another kind, as its element."""

    def __init__(self, octets):
        self.element = octets

    def octets(self):
        return self.element


def graphic(name):
    """A file's name in a GraphicString: what is outside ASCII is a question mark."""
    return re.sub(r"[^\x20-\x7e]", "?", name).encode("ascii")


def contents_of(head, parts):
    return heading.octets_of(head), sequence(*(it.octets() for it in parts))


def content_of(head, parts):
    """The content of an interpersonal message."""
    return tagged(0, *contents_of(head, parts))


# ---- reading


def strings_of(parameters):
    """The strings of a file's environment that a user sees."""
    environment = tags(parameters).get(ENVIRONMENT)
    visible = tags(environment).get(USER_VISIBLE) if environment is not None else None
    return [it.text() for it in visible.children()] if visible is not None else []


def extended_of(it):
    """The parameters and the data of a part by reference, each as a reference and its value; parameters may be none."""
    parameters, data = (None, None), None
    for each in it.children():
        if each.tag == (CONTEXT, 0):
            parameters = p22.value_of(each)
        else:
            data = p22.value_of(each)
    return parameters, data


def extended_part(it):
    (kind, parameters), (reference, value) = extended_of(it)
    if reference == TEXT_DATA and not isinstance(value, bytes):
        numbers = [each.number() for each in parameters.children()] if kind == TEXT_PARAMETERS else []
        return Text(texts.of_general(numbers, value.octets()))
    if reference == p22.FILE_DATA and not isinstance(value, bytes):
        is_file = kind == p22.FILE_PARAMETERS
        name, lines = (p22.pathname_of(parameters), strings_of(parameters)) if is_file else (None, [])
        return File(p22.octets_in(value), name, lines)
    return Other(bytes(it.whole))


def message_part(it, depth):
    parameters, data = it.children()
    moment = tags(parameters).get((CONTEXT, 0))
    head, body = data.children()
    return Message(heading.heading_of(head), parts_of(body, depth + 1), moment.text() if moment is not None else None)


def part_of(it, depth):
    """A body part; one that is not read to its end is kept as it is."""
    try:
        if it.tag == IA5_TEXT:
            return Text(it.children()[-1].text())
        if it.tag == TELETEX:
            pages = (texts.of_teletex(each.octets()) for each in it.children()[-1].children())
            return Text(PAGE_END.join(pages))
        if it.tag == MESSAGE and depth < MOST_NESTED:
            return message_part(it, depth)
        if it.tag == EXTENDED:
            return extended_part(it)
    except (ber.Fault, KeyError, ValueError, IndexError, TypeError, AttributeError):
        pass
    return Other(bytes(it.whole))


def parts_of(body, depth=0):
    return [part_of(it, depth) for it in body.children()]
