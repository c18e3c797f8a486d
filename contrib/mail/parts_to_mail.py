"""The parts of a mail (MIME) of the body parts of an interpersonal message. All that is written is of seven bits."""
import base64
import mimetypes
import quopri
import re

from mail import fields, structure
from mail.bodies import File, Message, Text
from mail.heading_to_mail import fields_of
from mail.identifiers import digest_of

LONGEST_LINE = 900
LINE = re.compile(r"(content-[a-z-]+): ([\x20-\x7e]+)", re.I)
TYPE = re.compile(r"([a-z0-9!#$&^_.+-]{1,64}/[a-z0-9!#$&^_.+-]{1,64})(\s*;.*)?", re.I)
OCTETS = "application/octet-stream"
TEXT_TYPES = {"message/delivery-status", "message/disposition-notification", "text/rfc822-headers"}


class Entity:
    """Fields and a body, of lines that end with LF."""

    def __init__(self, found, body):
        self.fields, self.body = found, body

    def head(self):
        """The fields as octets."""
        return "".join(fields.folded(name, value) + "\n" for name, value in self.fields).encode("ascii")

    def octets(self):
        return self.head() + b"\n" + self.body


def is_plain(octets):
    """Whether octets are lines of ASCII that go as they are."""
    lines = octets.split(b"\n")
    return octets.isascii() and not re.search(rb"[\0\r]", octets) and all(len(it) <= LONGEST_LINE for it in lines)


def base64_lines(octets):
    return base64.encodebytes(octets)


def text_entity(text):
    """A text; what is no plain ASCII is in UTF-8, quoted where most of it is ASCII."""
    octets = text.replace("\r\n", "\n").encode("utf-8")
    charset = "us-ascii" if octets.isascii() else "utf-8"
    kind = ("Content-Type", f"text/plain; charset={charset}")
    if is_plain(octets):
        return Entity([kind], octets)
    if sum(it < 128 for it in octets) * 3 > len(octets) * 2:
        return Entity([kind, ("Content-Transfer-Encoding", "quoted-printable")], quoted(octets))
    return Entity([kind, ("Content-Transfer-Encoding", "base64")], base64_lines(octets))


def quoted(octets):
    """Octets as quoted-printable, in which a CR is quoted too."""
    return b"\n".join(quopri.encodestring(it).replace(b"\r", b"=0D") for it in octets.split(b"\n"))


def file_fields(part):
    """The fields that a file brought, and what is made of its name where it brought none."""
    found = {}
    for each in part.lines:
        line = LINE.fullmatch(each)
        if line and line[1].lower() not in found and line[1].lower() not in ("content-transfer-encoding",
                                                                             "content-length"):
            found[line[1].lower()] = (line[1], line[2])
    name = re.sub(r'[\x00-\x1f\x7f"\\/]', "_", part.name or "")
    kind = found.get("content-type", ("", ""))[1]
    typed = TYPE.fullmatch(kind)
    if not typed or typed[1].lower().startswith("multipart/"):
        found["content-type"] = ("Content-Type", mimetypes.guess_type(name)[0] or OCTETS)
    if name and "content-disposition" not in found and "name" not in kind.lower():
        found["content-disposition"] = ("Content-Disposition", f'attachment; filename="{fields.plain(name)}"')
    return found


def file_entity(part):
    found = file_fields(part)
    kind = TYPE.fullmatch(found["content-type"][1])[1].lower()
    if kind in TEXT_TYPES and is_plain(part.data):
        return Entity(list(found.values()), part.data)
    if kind.startswith("message/"):  # such a part has no encoding
        found["content-type"] = ("Content-Type", f"{OCTETS}; x400-type=\"{kind}\"")
    octets = part.data.replace(b"\r\n", b"\n")
    if kind.startswith("text/") and is_plain(octets) and octets.endswith(b"\n") and b"\r\n" not in part.data:
        return Entity(list(found.values()), octets)
    return Entity([*found.values(), ("Content-Transfer-Encoding", "base64")], base64_lines(part.data))


def other_entity(part):
    octets = part.octets()
    found = [("Content-Type", f"application/x400-bp; bp-type={octets[0] & 31}"),
             ("Content-Transfer-Encoding", "base64")]
    return Entity(found, base64_lines(octets))


def entity_of(part, table, place):
    if isinstance(part, Text):
        return text_entity(part.text)
    if isinstance(part, File):
        return file_entity(part)
    if isinstance(part, Message):
        inner = message_entity(part.heading, part.parts, table, f"{place}m")
        return Entity([("Content-Type", "message/rfc822")], inner.octets())
    return other_entity(part)


def multipart(subtype, entities, place, more=""):
    """Entities as one. Nothing that is encoded, and no other multipart here, has a line that is like its boundary."""
    inside = [it.octets() for it in entities]
    boundary = f"=_{place}_{digest_of(b''.join(inside), 16)}"
    body = b"".join(f"--{boundary}\n".encode("ascii") + it + b"\n" for it in inside)
    kind = f'multipart/{subtype};{more} boundary="{boundary}"'
    return Entity([("Content-Type", kind)], body + f"--{boundary}--\n".encode("ascii"))


def first_type(entity):
    kind = dict(entity.fields)["Content-Type"]
    return kind.partition(";")[0].strip()


def node_entity(node, entities, place):
    if isinstance(node, int):
        return entities[node]
    inside = [node_entity(it, entities, f"{place}{at}") for at, it in enumerate(node.children)]
    more = f' type="{first_type(inside[0])}";' if node.subtype == "related" else ""
    return multipart(node.subtype, inside, place, more)


def body_entity(parts, head, table, place):
    """The body of parts, by the structure that the heading names."""
    if not parts:
        return text_entity("")
    named = next((it for it in head.fields if it.lower().startswith(f"{structure.FIELD.lower()}: ")), None)
    node = structure.structure_of(named.partition(": ")[2], len(parts)) if named else structure.flat(len(parts))
    return node_entity(node, [entity_of(it, table, f"{place}{at}") for at, it in enumerate(parts)], place)


def message_entity(head, parts, table, place="", before=()):
    """A mail of a heading and body parts, with these fields before those of the heading."""
    body = body_entity(parts, head, table, place or "x")
    found = [*before, *fields_of(head, table), ("MIME-Version", "1.0"), *body.fields]
    return Entity(found, body.body)
