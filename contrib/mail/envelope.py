"""Envelopes of P1 (X.411): those of messages and reports written, and what the gateway reads of them."""
import p1
import x690 as ber
from mail.names import name_octets, or_name
from x690 import APPLICATION, CONTEXT, element, sequence, set_of, tagged

INTERNAL_TRACE = 38  # the type of the extension
LONGEST_MTA, LONGEST_CONTENT_IDENTIFIER, LONGEST_SUPPLEMENT = 32, 16, 256
MOST_TRACE = 512
# indicators: responsibility; what the originating agent, and the originator, want: nothing, of non-delivery, of both
NOTHING, OF_FAILURE, OF_BOTH = "10100000", "10101000", "10110000"
RELAYED, ACTIONS = 0, {0: "Relayed", 1: "Rerouted"}


class Place:
    """A place that a message came through: a domain, the agent there where it is known, and when, as a UTCTime."""

    def __init__(self, domain, moment, mta=None, action=RELAYED):
        self.domain, self.moment, self.mta, self.action = domain, moment, mta, action


class Envelope:
    """What is written of the envelope of a message. `recipients` are names and indicators."""

    def __init__(self, sender, domain, local, recipients):
        self.sender, self.domain, self.local, self.recipients = sender, domain, local, recipients
        self.priority, self.deferred, self.latest, self.content_identifier = 0, None, None, None
        self.places = []  # in the order of time


# ---- writing


def domain_octets(domain):
    private = b"".join(ber.printable(it) for it in domain.all_of("P"))
    return element((APPLICATION, 3), p1.of_country(domain) + p1.of_administration(domain) + private, True)


def identifier_octets(domain, local):
    return element((APPLICATION, 4), domain_octets(domain) + ber.ia5(local), True)


def extension(kind, value):
    return sequence(ber.integer(kind, (CONTEXT, 0)), tagged(2, value))


def place_octets(place):
    action = set_of(ber.primitive(0, place.moment.encode("ascii")), ber.integer(place.action, (CONTEXT, 2)))
    return sequence(domain_octets(place.domain), ber.ia5(place.mta), action)


def recipient_octets(name, bits, number):
    return set_of(or_name(name), ber.integer(number, (CONTEXT, 0)), ber.bit_string(bits, (CONTEXT, 1)))


def extensions_of(it):
    made = [p1.latest_delivery(it.latest)] if it.latest else []
    if it.places:
        made.append(extension(INTERNAL_TRACE, sequence(*(place_octets(each) for each in it.places[-MOST_TRACE:]))))
    return tagged(3, *made) if made else b""


def message_octets(it, content, kind):
    """A message that no agent of X.400 relayed yet."""
    moment = ber.primitive(0, it.deferred.encode("ascii")) if it.deferred else b""
    named = it.content_identifier
    return tagged(0, set_of(
        or_name(it.sender), identifier_octets(it.domain, it.local), ber.integer(kind, (APPLICATION, 6)),
        ber.integer(it.priority, (APPLICATION, 7)) if it.priority else b"",
        element((APPLICATION, 9), b"", True),
        element((APPLICATION, 10), named.encode("ascii")) if named else b"", moment,
        tagged(2, *(recipient_octets(name, bits, at) for at, (name, bits) in enumerate(it.recipients, 1))),
        extensions_of(it)), element(ber.OCTET_STRING, content))


class Row:
    """What a report says of a recipient: delivered at a moment, or not, for a reason and perhaps a diagnostic."""

    def __init__(self, name, number, bits, arrival, delivered=None, reason=None, diagnostic=None, supplement=None):
        self.name, self.number, self.bits, self.arrival, self.delivered = name, number, bits, arrival, delivered
        self.reason, self.diagnostic, self.supplement = reason, diagnostic, supplement


def row_octets(row):
    if row.delivered:
        kind = tagged(0, ber.primitive(0, row.delivered.encode("ascii")))
    else:
        diagnostic = ber.integer(row.diagnostic, (CONTEXT, 1)) if row.diagnostic is not None else b""
        kind = tagged(1, ber.integer(row.reason, (CONTEXT, 0)) + diagnostic)
    last = tagged(3, ber.primitive(0, row.arrival.encode("ascii")) + tagged(1, kind))
    supplement = ber.primitive(5, row.supplement.encode("ascii")) if row.supplement else b""
    return set_of(tagged(0, name_octets(row.name)), ber.integer(row.number, (CONTEXT, 1)),
                  ber.bit_string(row.bits, (CONTEXT, 2)), last, supplement)


def report_octets(destination, domain, local, subject, rows):
    """A report to this name, on the message of an identifier, which is a pair of domain and local text."""
    envelope = set_of(or_name(destination), identifier_octets(domain, local), element((APPLICATION, 9), b"", True))
    content = set_of(identifier_octets(*subject), tagged(0, *(row_octets(it) for it in rows)))
    return tagged(1, envelope, content)


# ---- reading


def place_of(it):
    """A trace element, of a domain or with the agent in it."""
    domain, *mta, action = it.children()
    found = p1.by_tag(action.children())
    said = found.get((CONTEXT, 2))
    return Place(p1.domain_of(domain.children()), found[CONTEXT, 0].text(), p1.readable(mta[0].text()) if mta else None,
                 said.number() if said is not None else RELAYED)


def trace_of(apdu):
    """The domains that a message came through, in the order of time."""
    return [place_of(it) for it in apdu.found[APPLICATION, 9].children()] if (APPLICATION, 9) in apdu.found else []


def internal_trace_of(apdu):
    value = apdu.extension(INTERNAL_TRACE)
    return [place_of(it) for it in value.children()] if value is not None else []


def history_of(apdu):
    """The lists that a message came through, each with its moment."""
    value = apdu.extension(p1.DL_EXPANSION_HISTORY)
    found = [it.children() for it in value.children()] if value is not None else []
    return [(p1.name_of(it[0]), it[1].text() if len(it) > 1 else None) for it in found]


def own_extensions(apdu):
    """The types of extensions that have no field of mail, and their octets."""
    fields = apdu.found[CONTEXT, 3].children() if (CONTEXT, 3) in apdu.found else []
    read = {p1.LATEST_DELIVERY, p1.DL_EXPANSION_HISTORY, INTERNAL_TRACE}
    for it in fields:
        kind = it.children()[0]
        kind = kind.only() if kind.constructed else kind
        if kind.tag != (CONTEXT, 0) or kind.number() not in read:
            yield bytes(it.whole)


def text_in(apdu, number):
    found = apdu.found.get((APPLICATION, number))
    return found.text() if found is not None else None


def content_type_of(apdu):
    found = apdu.found.get((APPLICATION, 6))
    return found.number() if found is not None else None


def priority_of(apdu):
    found = apdu.found.get((APPLICATION, 7))
    return found.number() if found is not None else 0


def indicators_of(apdu):
    found = apdu.found.get((APPLICATION, 8))
    return found.bits() if found is not None else ""


def local_of(apdu):
    """The domain and the local text of the identifier."""
    domain, local = apdu.found[APPLICATION, 4].children()
    return p1.domain_of(domain.children()), local.text()
