"""The body parts of an interpersonal message of the parts of a mail (MIME)."""
import mimetypes
import re

import texts
import x690 as ber
from mail import fields, structure
from mail.bodies import MOST_NESTED, File, Message, Other, Text
from mail.heading_from_mail import ascii_line, heading_from
from mail.refusals import CANNOT_BE_READ, Refused

MOST_PARTS = 1000
KEPT = re.compile(r"content-(?!transfer-encoding|length)[a-z-]+", re.I)
X400_PART = "application/x400-bp"
NO_NAME = "part"


def payload_octets(part):
    """The octets of a part that is no multipart, whatever encoding it names."""
    found = part.get_payload(decode=True)
    if found is not None:
        return found
    inner = part.get_payload()
    pieces = inner if isinstance(inner, list) else [inner]
    return b"\n".join(octets_of(it) if hasattr(it, "raw_items") else str(it).encode("utf-8", "surrogateescape")
                      for it in pieces if it is not None)


def octets_of(message):
    """A message that was read, as octets."""
    lines = [f"{name}: {value}\n" for name, value in message.raw_items()]
    return "".join(lines).encode("utf-8", "surrogateescape") + b"\n" + payload_octets(message)


def lines_of(part):
    """The fields of a part that tell what it is. Without a disposition it is one that is shown."""
    found = [(name, value) for name, value in fields.fields_of(part) if KEPT.fullmatch(name)]
    if not any(name.lower() == "content-disposition" for name, _ in found):
        found.append(("Content-Disposition", "inline"))
    return [ascii_line(*it) for it in found]


def name_of(part):
    """The name of a part's file, without folders; None where it has none."""
    try:
        name = part.get_filename()
    except (ValueError, LookupError, TypeError, IndexError):
        return None
    name = fields.decoded(name).replace("\\", "/").rsplit("/", 1)[-1].strip() if name else ""
    return name[:200] or None


def named_for(part, kind):
    return NO_NAME + (mimetypes.guess_extension(kind, strict=False) or ".dat") if kind.startswith("text/") else None


def is_attachment(part):
    return str(part.get("Content-Disposition", "")).strip().lower().startswith("attachment") or name_of(part)


def text_in(part, octets):
    """The text of a part in its character set; None where it has none that is known, or octets outside it."""
    try:
        charset = part.get_content_charset("us-ascii")
        text = octets.decode("utf-8" if charset == "us-ascii" else charset)
    except (LookupError, ValueError):
        return None
    return texts.ends_as_crlf(text)


def text_part(part, octets):
    """A text as a text body part, where a part of ISO 8859 has its characters; else as a file."""
    text = text_in(part, octets)
    if text is None or "\0" in text or texts.general(text) is None:
        return File(octets, "text.txt", lines_of(part))
    return Text(text)


def x400_part(octets):
    """A body part that a gateway wrote as its octets; None where it is none."""
    try:
        it = ber.whole(octets)
        while it.constructed and it.children():
            it = it.children()[-1]
    except (ber.Fault, RecursionError):
        return None
    return Other(octets) if octets and octets[0] >> 6 == ber.CONTEXT else None


def file_part(part, kind):
    octets = payload_octets(part)
    if kind == X400_PART:
        made = x400_part(octets)
        if made is not None:
            return made
    if kind == "text/plain" and not is_attachment(part):
        return text_part(part, octets)
    return File(octets, name_of(part) or named_for(part, kind), lines_of(part))


class Walk:
    """Takes the parts of a mail in their order."""

    def __init__(self, table, sender):
        self.table, self.sender = table, sender
        self.parts, self.seen = [], 0

    def taken(self, part):
        self.parts.append(part)
        return len(self.parts) - 1

    def node(self, part, depth, nested):
        """The structure of a part, whose own parts are taken in."""
        self.seen += 1
        if self.seen > MOST_PARTS or depth > structure.MOST_DEEP - 2:
            raise Refused(CANNOT_BE_READ, f"the message has more than {MOST_PARTS} parts, or more than "
                          f"{structure.MOST_DEEP - 2} within one another")
        kind, inner = part.get_content_type(), part.get_payload()
        if kind.startswith("multipart/") and isinstance(inner, list) and inner:
            subtype = kind.partition("/")[2]
            subtype = subtype if structure.SUBTYPE.fullmatch(subtype) else "mixed"
            return structure.Node(subtype, [self.node(it, depth + 1, nested) for it in inner])
        if kind == "message/rfc822" and isinstance(inner, list) and len(inner) == 1:
            return self.taken(self.message(inner[0], part, nested))
        return self.taken(file_part(part, kind))

    def message(self, inner, part, nested):
        """A message within this one; as a file where it is too deep, or no message."""
        if nested + 1 >= MOST_NESTED:
            return File(octets_of(inner), "message.eml", lines_of(part))
        head, parts = message_of(inner, self.table, self.sender, nested + 1)
        return Message(head, parts)


def message_of(message, table, sender, nested=0, identifier="no identifier"):
    """The heading and the body parts of a mail."""
    walk = Walk(table, sender)
    node = walk.node(message, 0, nested)
    found = fields.fields_of(message)
    head = heading_from(found, table, sender, identifier)
    if not structure.is_flat(node, len(walk.parts)):
        head.fields.append(f"{structure.FIELD}: {structure.text_of(node)}")
    return head, walk.parts
