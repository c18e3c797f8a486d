"""APDUs of P1 (X.411) and O/R names (X.402): what the tools beside `mta` read of them, and messages written."""
from functools import cached_property

import x690 as ber
from x690 import APPLICATION, CONTEXT, NUMERIC_STRING, PRINTABLE_STRING, UNIVERSAL, element, sequence, set_of

KINDS = {0: "message", 1: "report", 2: "probe"}
PRIORITIES = {0: "normal", 1: "non-urgent", 2: "urgent"}
LONGEST = 2097152  # octets of an APDU
PARTS = ("C", "A", "P", "O", "OU", "S", "G", "I", "Q", "CN", "X121", "TID", "UID")
MOST_UNITS = MOST_DEFINED = 4
PRINTABLE = set("ABCDEFGHIJKLMNOPQRSTUVWXYZabcdefghijklmnopqrstuvwxyz0123456789 '()+,-./:=?")
LONGEST_PART = {"C": 3, "A": 16, "P": 16, "O": 64, "OU": 32, "S": 40, "G": 16, "I": 5, "Q": 3, "CN": 64, "X121": 16,
                "TID": 24, "UID": 32}
LATEST_DELIVERY, DL_EXPANSION_HISTORY = 5, 26  # types of extensions


class BadName(Exception):
    """A text that is no text form of an O/R name."""


class Name:
    """An O/R name: its parts in the order of the text form, and what is kept unread."""

    def __init__(self, parts, unread=()):
        self.parts, self.unread = parts, unread

    def text(self):
        return ";".join(f"{key}={value}" for key, value in self.parts)

    def normal(self):
        """Equal for two names that are the same (X.402, clause 18): letters of either case, and runs of spaces."""
        return tuple((key.upper(), " ".join(value.upper().split())) for key, value in self.parts), self.unread

    def all_of(self, key):
        return [value for it, value in self.parts if it == key]

    def one(self, key):
        return (self.all_of(key) + [None])[0]


def checked(key, value):
    """The value of a part, where it is in its class and within its size."""
    least, most = (0, 16) if key == "A" else (1, LONGEST_PART.get(key, 128))
    if not least <= len(value) <= most:
        raise BadName(f"{key} has {least} to {most} characters, and not {len(value)}: {value!r}")
    if key in ("X121", "UID") and not set(value) <= set("0123456789 "):
        raise BadName(f"{key} has digits alone: {value!r}")
    if key == "C" and not (len(value) == 2 and value.isalpha() or len(value) == 3 and value.isdigit()):
        raise BadName(f"C is two letters or three digits: {value!r}")
    if not set(value) <= PRINTABLE:
        raise BadName(f"{key} has a character outside PrintableString: {value!r}")
    return value


def name_from(text):
    """The O/R name of a text form, KEY=value parts joined by semicolons, in any order here."""
    parts = []
    for part in text.split(";"):
        key, equals, value = part.partition("=")
        if not equals or key not in PARTS and not key.startswith("DDA:"):
            raise BadName(f"{part!r} is no part of a name; the parts are {'=, '.join(PARTS)}= and DDA:TYPE=")
        parts.append((key, checked(key, value)))
    keys = [key for key, _ in parts]
    for key in set(keys):
        if keys.count(key) > (MOST_UNITS if key == "OU" else 1):
            raise BadName(f"{key} stands more often than it may")
    if {"G", "I", "Q"} & set(keys) and "S" not in keys:
        raise BadName("G, I and Q need S")
    if sum(key.startswith("DDA:") for key in keys) > MOST_DEFINED:
        raise BadName("there are at most four domain-defined attributes")
    return Name(sorted(parts, key=lambda it: PARTS.index(it[0]) if it[0] in PARTS else len(PARTS)))


def complete(name):
    """The name, where somebody can be reached by it: X.402 has a country and an administration domain in each, but in
    that of a terminal."""
    if name.one("X121") is None:
        for key, what in (("C", "country"), ("A", "administration domain")):
            if name.one(key) is None:
                raise BadName(f"{name.text()} has no {what}, {key}=")
    return name


# ---- reading


def by_tag(found):
    return {it.tag: it for it in found}


def personal_of(it):
    return [(key, part.text()) for key, part in zip("SGIQ", (by_tag(it.children()).get((CONTEXT, n)) for n in range(4)))
            if part is not None]


def standard_of(it):
    """The standard attributes, by the keys of the text form."""
    found = by_tag(it.children())
    parts = []
    for tag, key in (((APPLICATION, 1), "C"), ((APPLICATION, 2), "A"), ((CONTEXT, 2), "P")):
        if tag in found:
            parts.append((key, found[tag].only().text()))
    for number, key in ((3, "O"), (0, "X121"), (1, "TID"), (4, "UID")):
        if (CONTEXT, number) in found:
            parts.append((key, found[CONTEXT, number].text()))
    if (CONTEXT, 6) in found:
        parts += [("OU", unit.text()) for unit in found[CONTEXT, 6].children()]
    return parts + (personal_of(found[CONTEXT, 5]) if (CONTEXT, 5) in found else [])


def name_of(it):
    """The O/R name of an element, whatever its tag is."""
    first, *others = it.children()
    parts, unread = standard_of(first), []
    for other in others:
        if other.tag == (UNIVERSAL, 16):
            parts += [(f"DDA:{a.text()}", b.text()) for a, b in (pair.children() for pair in other.children())]
        elif other.tag == (UNIVERSAL, 17):
            for attribute in other.children():
                kind, value = attribute.children()
                if kind.number() == 1:
                    parts.append(("CN", value.only().text()))
                else:
                    unread.append((kind.number(), bytes(value.whole)))
        else:
            unread.append((-1, bytes(other.whole)))
    order = {key: at for at, key in enumerate(PARTS)}
    return Name(sorted(parts, key=lambda part: order.get(part[0], len(PARTS))), tuple(sorted(unread)))


def domain_of(parts):
    return Name([(key, it.only().text() if it.constructed else it.text()) for key, it in zip("CAP", parts)])


def readable(text):
    """The text with octets outside 20 to 7E as a backslash and two hexadecimal digits, as `mta` prints it."""
    return "".join(it if " " <= it <= "~" else f"\\{ord(it):02x}" for it in text)


def identifier_of(it):
    domain, local = it.children()
    return f"{domain_of(domain.children()).text()}/{readable(local.text())}"


class Recipient:
    """A recipient as an APDU has it. `bits` are the indicators: 0 responsibility, 1 and 3 ask for delivery reports.

    Its name is given, or the element that has it, which is read when it is asked for."""

    def __init__(self, bits, name=None, element=None):
        self.bits, self.element = bits, element
        if name is not None:
            self.name = name

    @cached_property
    def name(self):
        return name_of(self.element)

    def is_set(self, bit):
        return self.bits[bit:bit + 1] == "1"

    def asks_report(self):
        return self.is_set(1) or self.is_set(3)


class Apdu:
    """What is read of an APDU. A report has its destination as `originator`, and as its one recipient.

    `found` are the components of its envelope, and `of_content` the element of its content. What is dear is read when
    it is asked for: a name takes as long as all the rest."""

    def __init__(self, kind, recipients, found, of_content=None):
        self.kind, self.recipients, self.found, self.of_content = kind, recipients, found, of_content

    @cached_property
    def identifier(self):
        return identifier_of(self.found[APPLICATION, 4])

    @cached_property
    def originator(self):
        return name_of(self.found[APPLICATION, 0])

    @cached_property
    def history(self):
        """The lists that a message came through."""
        value = self.extension(DL_EXPANSION_HISTORY)
        return [] if value is None else [name_of(it.children()[0]) for it in value.children()]

    @cached_property
    def deferred(self):
        """The moment to which a message is deferred, as seconds since 1970, or None."""
        is_deferred = self.kind == "message" and (CONTEXT, 0) in self.found
        return ber.utc_seconds(self.found[CONTEXT, 0].text()) if is_deferred else None

    @cached_property
    def latest(self):
        """The moment until which a message or a probe may be delivered, as seconds since 1970, or None."""
        value = None if self.kind == "report" else self.extension(LATEST_DELIVERY)
        return None if value is None else ber.utc_seconds(value.text())

    def extension(self, number):
        """The value of the extension of a type; None where there is none."""
        fields = self.found[CONTEXT, 3].children() if (CONTEXT, 3) in self.found else []
        values = (value_of(*field.children(), number=number) for field in fields)
        return next((it for it in values if it is not None), None)

    @cached_property
    def content(self):
        return self.of_content.octets()

    @cached_property
    def subject(self):
        """The identifier of what a report is on; None of another."""
        return identifier_of(by_tag(self.of_content.children())[APPLICATION, 4]) if self.kind == "report" else None


def made_apdu(kind, identifier, originator, recipients, history=(), subject=None):
    """An APDU that an agent made, of which no octets are at hand."""
    it = Apdu(kind, recipients, {})
    it.identifier, it.originator, it.history, it.subject = identifier, originator, list(history), subject
    it.deferred = it.latest = None
    return it


def value_of(kind, *others, number):
    """The value of an extension, where it is of this type and has one."""
    of_type = kind.only() if kind.constructed else kind
    value = by_tag(others).get((CONTEXT, 2))
    return value.only() if of_type.tag == (CONTEXT, 0) and of_type.number() == number and value is not None else None


def recipient_of(it):
    found = by_tag(it.children())
    return Recipient(found[CONTEXT, 1].bits(), element=found[APPLICATION, 0])


def transferred(kind, envelope, content=None):
    """A message or a probe."""
    found = by_tag(envelope.children())
    return Apdu(kind, [recipient_of(it) for it in found[CONTEXT, 2].children()], found, content)


def reported(envelope, content):
    found = by_tag(envelope.children())
    return Apdu("report", [Recipient("1", element=found[APPLICATION, 0])], found, content)


def apdu_of(octets):
    """What the octets spell. Octets that spell no APDU are an error: `mta decode` says which."""
    it = ber.whole(memoryview(octets))
    kind = KINDS.get(it.tag[1]) if it.tag[0] == CONTEXT else None
    try:
        if kind == "message":
            envelope, content = it.children()
            return transferred(kind, envelope, content)
        if kind == "probe":
            return transferred(kind, it)
        if kind == "report":
            return reported(*it.children())
    except (KeyError, ValueError, IndexError, TypeError) as why:
        raise ber.Fault(f"no {kind}: {why!r}") from why
    raise ber.Fault("neither a message nor a report nor a probe")


def without_responsibility(octets, positions):
    """A message or probe in which this agent is not responsible for the recipients at these positions any more."""
    changed = bytearray(octets)
    it = ber.whole(memoryview(changed))
    envelope = it.children()[0] if it.tag[1] == 0 else it
    for at, recipient in enumerate(by_tag(envelope.children())[CONTEXT, 2].children(), 1):
        if at in positions:
            bits = by_tag(recipient.children())[CONTEXT, 1]
            while bits.constructed:
                bits = bits.children()[0]
            bits.contents[1] &= 0x7F
    return bytes(changed)


# ---- writing


def label(text):
    """A country or a domain's name: digits alone are numeric where it is a country."""
    return element(NUMERIC_STRING if len(text) == 3 and text.isdigit() else PRINTABLE_STRING, text.encode("ascii"))


def of_country(name):
    return element((APPLICATION, 1), label(name.one("C")), True) if name.one("C") is not None else b""


def of_administration(name):
    return element((APPLICATION, 2), ber.printable(name.one("A")), True) if name.one("A") is not None else b""


def implicit(name, key, number):
    return b"".join(ber.primitive(number, value.encode("ascii")) for value in name.all_of(key))


def name_octets(name):
    """The contents of an O/R name."""
    private = b"".join(ber.tagged(2, ber.printable(it)) for it in name.all_of("P"))
    personal = b"".join(implicit(name, key, number) for number, key in enumerate("SGIQ"))
    units = b"".join(ber.printable(it) for it in name.all_of("OU"))
    standard = sequence(
        of_country(name), of_administration(name), implicit(name, "X121", 0), implicit(name, "TID", 1), private,
        implicit(name, "O", 3), implicit(name, "UID", 4), ber.tagged(5, personal) if personal else b"",
        ber.tagged(6, units) if units else b"")
    defined = b"".join(
        sequence(ber.printable(key[4:]), ber.printable(value)) for key, value in name.parts if key.startswith("DDA:"))
    common = b"".join(
        set_of(sequence(ber.primitive(0, b"\x01"), ber.tagged(1, ber.printable(it)))) for it in name.all_of("CN"))
    return standard + (sequence(defined) if defined else b"") + common


def or_name(name):
    return element((APPLICATION, 0), name_octets(name), True)


def identifier_octets(domain, local):
    """The identifier of a message in this name's domain."""
    private = b"".join(ber.printable(it) for it in domain.all_of("P"))
    of_domain = element((APPLICATION, 3), of_country(domain) + of_administration(domain) + private, True)
    return element((APPLICATION, 4), of_domain + ber.ia5(local), True)


def recipient_octets(name, number, report):
    # responsible, originating-MTA non-delivery report, and the originator's report: of both, or of non-delivery alone
    bits = "10110000" if report else "10101000"
    return set_of(or_name(name), ber.integer(number, (CONTEXT, 0)), ber.bit_string(bits, (CONTEXT, 1)))


def latest_delivery(moment):
    """The extension that says until when a message may be delivered."""
    time = element(ber.UTC_TIME, moment.encode("ascii"))
    kind = ber.integer(LATEST_DELIVERY, (CONTEXT, 0))
    return sequence(kind, ber.bit_string("001", (CONTEXT, 1)), ber.tagged(2, time))


def message_octets(sender, recipients, local, content, kind=22, report=False, priority="normal", deferred=None,
                   latest=None):
    """A message that nobody relayed yet, so its trace is empty. Its components stand in the order of their tags."""
    number = next(number for number, word in PRIORITIES.items() if word == priority)
    envelope = [or_name(sender), identifier_octets(sender, local), ber.integer(kind, (APPLICATION, 6))]
    if number:
        envelope.append(ber.integer(number, (APPLICATION, 7)))
    envelope.append(element((APPLICATION, 9), b"", True))
    if deferred:
        envelope.append(ber.primitive(0, deferred.encode("ascii")))
    fields = (recipient_octets(name, at, report) for at, name in enumerate(recipients, 1))
    envelope.append(ber.tagged(2, *fields))
    if latest:
        envelope.append(ber.tagged(3, latest_delivery(latest)))
    return ber.tagged(0, set_of(*envelope), element(ber.OCTET_STRING, content))
