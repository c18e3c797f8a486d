"""What a mailbox fetched, as `mta_store fetch` prints it, or an APDU: in one form for the way to mail."""
import re

import p1
import x690 as ber
from mail import envelope
from mail.envelope import Place, Row

APDU_TAGS = (0xA0, 0xA1)
REPORTED = re.compile(r"recipient (\d+) ([01]*) (?:delivery (\S+) \d+|non-delivery (\d+) (\d+|-)) arrived (\S+) (.*)")
TRACE = re.compile(r"trace (.*) (\d{12}Z) (relayed|rerouted)")


class Message:
    """A message that was delivered."""

    def __init__(self):
        self.identifier = self.originator = self.content = None
        self.content_type = self.content_identifier = self.deferred = self.latest = None
        self.priority, self.indicators = 0, ""
        self.recipients = []  # number, indicators, name
        self.domains, self.agents, self.history, self.extensions = [], [], [], []


class Report:
    """A report: on the message of `subject`, whose rows say what became of its recipients."""

    def __init__(self):
        self.identifier = self.destination = self.subject = self.returned = None
        self.content_identifier = None
        self.domains, self.rows = [], []


# ---- of octets


def message_of_octets(apdu):
    made = Message()
    made.identifier, made.originator, made.content = envelope.local_of(apdu), apdu.originator, apdu.content
    made.content_type, made.priority = envelope.content_type_of(apdu), envelope.priority_of(apdu)
    made.content_identifier, made.indicators = envelope.text_in(apdu, 10), envelope.indicators_of(apdu)
    found = apdu.found.get((ber.CONTEXT, 0))
    made.deferred = found.text() if found is not None else None
    found = apdu.extension(p1.LATEST_DELIVERY)
    made.latest = found.text() if found is not None else None
    made.domains, made.agents = envelope.trace_of(apdu), envelope.internal_trace_of(apdu)
    made.history, made.extensions = envelope.history_of(apdu), list(envelope.own_extensions(apdu))
    for it, element in zip(apdu.recipients, apdu.found[ber.CONTEXT, 2].children()):
        made.recipients.append((p1.by_tag(element.children())[ber.CONTEXT, 0].number(), it.bits, it.name))
    return made


def row_of(it):
    found = p1.by_tag(it.children())
    last = p1.by_tag(found[ber.CONTEXT, 3].children())
    kind = last[ber.CONTEXT, 1].only()
    inside = p1.by_tag(kind.children())
    made = Row(p1.name_of(found[ber.CONTEXT, 0]), found[ber.CONTEXT, 1].number(), found[ber.CONTEXT, 2].bits(),
               last[ber.CONTEXT, 0].text())
    if kind.tag == (ber.CONTEXT, 0):
        made.delivered = inside[ber.CONTEXT, 0].text()
    else:
        made.reason = inside[ber.CONTEXT, 0].number()
        made.diagnostic = inside[ber.CONTEXT, 1].number() if (ber.CONTEXT, 1) in inside else None
    supplement = found.get((ber.CONTEXT, 5))
    made.supplement = supplement.text() if supplement is not None else None
    return made


def report_of_octets(apdu):
    made = Report()
    content = p1.by_tag(apdu.of_content.children())
    made.identifier, made.destination, made.subject = apdu.identifier, apdu.originator, apdu.subject
    made.domains = envelope.trace_of(apdu)
    made.rows = [row_of(it) for it in content[ber.CONTEXT, 0].children()]
    named, returned = content.get((ber.APPLICATION, 10)), content.get((ber.CONTEXT, 1))
    made.content_identifier = named.text() if named is not None else None
    made.returned = returned.octets() if returned is not None else None
    return made


# ---- of the text


def unescaped(text):
    """An identifier without the backslashes of octets that are not printed."""
    return re.sub(r"\\([0-9a-f]{2})", lambda found: chr(int(found[1], 16)), text)


def split_identifier(text):
    domain, _, local = text.partition("/")
    return p1.name_from(domain), unescaped(local)


def take_message_line(made, word, rest):
    if word == "message":
        made.identifier = split_identifier(rest)
    elif word == "originator":
        made.originator = p1.name_from(rest)
    elif word == "content-type":
        made.content_type = int(rest) if rest.isdigit() else None
    elif word == "content-identifier":
        made.content_identifier = unescaped(rest)
    elif word == "priority":
        made.priority = next(number for number, name in p1.PRIORITIES.items() if name == rest)
    elif word in ("indicators", "deferred", "latest"):
        setattr(made, word, rest)
    elif word == "trace":
        made.domains.append(place_of_line(rest))
    elif word == "recipient":
        number, bits, name = rest.split(" ", 2)
        made.recipients.append((int(number), bits, p1.name_from(name)))
    elif word == "content":
        made.content = bytes.fromhex(rest.partition(" ")[2])


def place_of_line(rest):
    found = TRACE.match(f"trace {rest}")
    if not found:
        raise ber.Fault(f"no line of a trace: {rest!r}")
    return Place(p1.name_from(found[1]), found[2], action=int(found[3] == "rerouted"))


def take_report_line(made, word, rest):
    if word == "report":
        made.identifier = rest
    elif word == "destination":
        made.destination = p1.name_from(rest)
    elif word == "subject":
        made.subject = rest
    elif word == "content-identifier":
        made.content_identifier = unescaped(rest)
    elif word == "trace":
        made.domains.append(place_of_line(rest))
    elif word == "recipient":
        found = REPORTED.fullmatch(f"recipient {rest}")
        if not found:
            raise ber.Fault(f"no line of a report: {rest!r}")
        reason = int(found[4]) if found[4] else None
        diagnostic = int(found[5]) if found[5] and found[5] != "-" else None
        made.rows.append(Row(p1.name_from(found[7]), int(found[1]), found[2], found[6], found[3], reason, diagnostic))


def of_text(text):
    """The message or report that lines are, as `mta decode` and `mta_store fetch` print them."""
    kind = text.partition(" ")[0]
    made, take = {"message": (Message(), take_message_line), "report": (Report(), take_report_line)}.get(
        kind, (None, None))
    if made is None:
        raise ber.Fault("neither an APDU nor what a mailbox fetched")
    try:
        for line in text.splitlines():
            word, _, rest = line.partition(" ")
            take(made, word, rest)
    except (ValueError, p1.BadName, StopIteration) as why:
        raise ber.Fault(f"no text of a {kind}: {why}") from why
    return made


def of_octets(octets):
    apdu = p1.apdu_of(octets)
    try:
        if apdu.kind == "message":
            return message_of_octets(apdu)
        if apdu.kind == "report":
            return report_of_octets(apdu)
    except (KeyError, ValueError, IndexError, TypeError) as why:
        raise ber.Fault(f"no {apdu.kind}: {why!r}") from why
    raise ber.Fault("a probe goes to no mailbox")


def fetched(octets):
    """The message or report that was fetched, from either form of it."""
    if octets[:1] and octets[0] in APDU_TAGS:
        return of_octets(octets)
    return of_text(octets.decode("latin-1"))
