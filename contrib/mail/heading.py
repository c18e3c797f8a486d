"""The heading of an interpersonal message (X.420), all fields of it, written and read."""
import x690 as ber
from mail.names import descriptor_of, identifier_of, tags
from texts import of_teletex, teletex
from x690 import APPLICATION, CONTEXT, element, sequence, set_of, tagged

LONGEST_SUBJECT = 128  # octets
IMPORTANCES = ("low", "normal", "high")
SENSITIVITIES = {1: "Personal", 2: "Private", 3: "Company-Confidential"}
REQUESTS = ("receipt", "non-receipt", "return")  # notification requests, by their bits
BOOLEAN, ENUMERATED = (0, 1), (0, 10)
# the heading extension that has fields of RFC 822 (RFC 2156): iso(1) org(3) dod(6) internet(1) mail(7) mixer(1)
# core(3) 2
RFC_822_FIELDS = ber.object_identifier(1, 3, 6, 1, 7, 1, 3, 2)


class Recipient:
    """A recipient specifier: a descriptor, the notifications that are asked for, and whether a reply is."""

    def __init__(self, descriptor, requests=(), is_reply_asked=False):
        self.descriptor, self.requests, self.is_reply_asked = descriptor, tuple(requests), is_reply_asked

    def octets(self):
        bits = "".join("1" if it in self.requests else "0" for it in REQUESTS)
        asked = ber.bit_string(bits.rstrip("0"), (CONTEXT, 1)) if self.requests else b""
        reply = ber.primitive(2, b"\xff") if self.is_reply_asked else b""
        return set_of(tagged(0, self.descriptor.octets()), asked, reply)


class Heading:
    """The fields of a heading; of those that stand more than once, lists. `extensions` are pairs of octets: the
    element of an object identifier and that of a value, which may be none. `fields` are lines of RFC 822."""

    def __init__(self, identifier):
        self.identifier, self.originator = identifier, None
        self.authorizing, self.to, self.copies, self.blind, self.reply_to = [], [], [], [], []
        self.replied_to, self.obsoleted, self.related = None, [], []
        self.subject = None  # octets of a TeletexString
        self.expires = self.reply_by = None  # UTCTime texts
        self.importance, self.sensitivity, self.auto_forwarded = 1, None, False
        self.extensions, self.fields = [], []

    def subject_text(self):
        return None if self.subject is None else of_teletex(self.subject)

    def recipients(self):
        return self.to + self.copies + self.blind


# ---- writing


def each(number, octets):
    """A field that is a list of elements; none where the list is empty."""
    return tagged(number, *octets) if octets else b""


def recipients_field(number, recipients):
    return each(number, [it.octets() for it in recipients])


def descriptors_field(number, descriptors):
    return each(number, [set_of(it.octets()) for it in descriptors])


def identifiers_field(number, identifiers):
    return each(number, [element((APPLICATION, 11), it.octets(), True) for it in identifiers])


def extensions_field(heading):
    found = list(heading.extensions)
    if heading.fields:
        found.append((RFC_822_FIELDS, sequence(*(ber.ia5(it) for it in heading.fields))))
    return each(15, [sequence(kind, value) for kind, value in found])


def contents_of(heading):
    """The fields in the order of their tags."""
    it = heading
    moment = [ber.primitive(number, text.encode("ascii")) if text else b""
              for number, text in ((9, it.expires), (10, it.reply_by))]
    return [
        element((APPLICATION, 11), it.identifier.octets(), True),
        tagged(0, it.originator.octets()) if it.originator else b"",
        descriptors_field(1, it.authorizing), recipients_field(2, it.to), recipients_field(3, it.copies),
        recipients_field(4, it.blind), tagged(5, it.replied_to.octets()) if it.replied_to else b"",
        identifiers_field(6, it.obsoleted), identifiers_field(7, it.related),
        tagged(8, element(ber.TELETEX_STRING, it.subject)) if it.subject is not None else b"",
        *moment, descriptors_field(11, it.reply_to),
        ber.integer(it.importance, (CONTEXT, 12)) if it.importance != 1 else b"",
        ber.integer(it.sensitivity, (CONTEXT, 13)) if it.sensitivity else b"",
        ber.primitive(14, b"\xff") if it.auto_forwarded else b"", extensions_field(it)]


def octets_of(heading):
    return set_of(*contents_of(heading))


# ---- reading


def requests_of(it):
    return [word for word, bit in zip(REQUESTS, it.bits()) if bit == "1"]


def recipient_of(it):
    found = tags(it)
    asked, reply = found.get((CONTEXT, 1)), found.get((CONTEXT, 2))
    return Recipient(descriptor_of(found[CONTEXT, 0]), requests_of(asked) if asked is not None else (),
                     reply is not None and any(reply.contents))


def take_extension(heading, it):
    kind, *value = it.children()
    kind = bytes(kind.whole)
    if kind == RFC_822_FIELDS and value:
        heading.fields += [line.text() for line in value[0].children()]
    else:
        heading.extensions.append((kind, bytes(value[0].whole) if value else b""))


def listed(found, number):
    """The elements of a field that is a list, which may be absent."""
    return found[CONTEXT, number].children() if (CONTEXT, number) in found else []


def number_of(found, number, default):
    return found[CONTEXT, number].number() if (CONTEXT, number) in found else default


def heading_of(it):
    """The heading that an element is."""
    found = tags(it)
    made = Heading(identifier_of(found[APPLICATION, 11]))
    made.originator = descriptor_of(found[CONTEXT, 0]) if (CONTEXT, 0) in found else None
    made.authorizing = [descriptor_of(each) for each in listed(found, 1)]
    made.to, made.copies, made.blind = ([recipient_of(each) for each in listed(found, at)] for at in (2, 3, 4))
    made.replied_to = identifier_of(found[CONTEXT, 5]) if (CONTEXT, 5) in found else None
    made.obsoleted, made.related = ([identifier_of(each) for each in listed(found, at)] for at in (6, 7))
    made.subject = found[CONTEXT, 8].only().octets() if (CONTEXT, 8) in found else None
    made.expires, made.reply_by = (found[CONTEXT, at].text() if (CONTEXT, at) in found else None for at in (9, 10))
    made.reply_to = [descriptor_of(each) for each in listed(found, 11)]
    made.importance, made.sensitivity = number_of(found, 12, 1), number_of(found, 13, None)
    made.auto_forwarded = (CONTEXT, 14) in found and any(found[CONTEXT, 14].contents)
    for it in listed(found, 15):
        take_extension(made, it)
    return made


def subject_octets(text):
    """A subject as the octets of a TeletexString of at most 128, and whether it is all there."""
    octets, is_whole = teletex(text)
    if len(octets) > LONGEST_SUBJECT:
        while len(octets) > LONGEST_SUBJECT:
            text = text[:min(LONGEST_SUBJECT, len(text) - 1)]
            octets, _ = teletex(text)
        return octets, False
    return octets, is_whole
