"""A mail as messages of X.400: one, or several pieces where it is longer than an APDU may be."""
import email
import email.policy
import re

import p1
import p22
from mail import addresses, bodies, envelope, fields, identifiers, returned, trace
from mail.bodies import File
from mail.envelope import Envelope
from mail.heading import Heading, Recipient, subject_octets
from mail.names import Descriptor
from mail.parts_from_mail import message_of
from mail.refusals import BAD_ADDRESS, CANNOT_BE_READ, NOT_A_USER, TOO_LONG, Refused
from mail.table import normal

PRIORITIES = {"non-urgent": 1, "urgent": 2, "normal": 0}
MOST_RECIPIENTS = 32767
LONGEST_MAIL = 100 * 1024 * 1024
PIECE = 1900000  # octets of a mail in a message of its own
MAKES_NONE = re.compile(r"auto-(replied|generated)", re.I)
PARTIAL = "message/partial"


def parsed(octets):
    """A mail as it is read; what it has is looked at later."""
    return email.message_from_bytes(octets, policy=email.policy.compat32)


class Wishes:
    """What came with a mail: the sender, the recipients, and of what the sender wants to hear (RFC 3461)."""

    def __init__(self, sender, recipients, notify=None, envelope_id=None):
        self.sender, self.recipients, self.notify, self.envelope_id = sender, recipients, notify, envelope_id


def moment_of(found, table):
    """When the mail came: as its first trace field says, so that a second try makes the same octets."""
    dates = [fields.utc_time(value.rpartition(";")[2]) for name, value in found if name.lower() == trace.RECEIVED]
    return next((it for it in dates if it), None) or fields.now_utc()


def sender_name(wishes, table):
    """The name of the sender, who has a mailbox: else reports and answers would be lost."""
    sender = wishes.sender or table.postmaster
    if sender is None:
        raise Refused(NOT_A_USER, "a message without a sender is not passed on: the table names no postmaster")
    if not table.is_user(sender):
        raise Refused(NOT_A_USER, f"{sender[:200]} has no mailbox at this gateway, so that reports and answers would "
                      "be lost")
    return table.names[normal(sender)]


def recipient_names(wishes, table):
    """The names of the recipients, each once."""
    found, wrong = {}, []
    for address in wishes.recipients:
        try:
            it = addresses.name_of_address(address, table)
            found.setdefault(it.normal(), it)
        except Refused as why:
            wrong.append(why.words)
            code = why.code
    if wrong:
        raise Refused(code, "; ".join(wrong))
    if not 1 <= len(found) <= MOST_RECIPIENTS:
        raise Refused(BAD_ADDRESS, f"a message has 1 to {MOST_RECIPIENTS} recipients, and not {len(found)}")
    return list(found.values())


def value_in(found, name):
    return next((value for key, value in found if key.lower() == name), None)


def bits_for(wishes, found):
    """What reports are asked for: by the envelope, and else by the fields of RFC 2156."""
    if wishes.notify is not None:
        never = "never" in wishes.notify
        return envelope.NOTHING if never else envelope.OF_BOTH if "success" in wishes.notify else envelope.OF_FAILURE
    if not wishes.sender or value_in(found, "prevent-nondelivery-report") is not None:
        return envelope.NOTHING
    asked = value_in(found, "generate-delivery-report") is not None
    is_automatic = MAKES_NONE.match(value_in(found, "auto-submitted") or "")
    return envelope.OF_BOTH if asked and not is_automatic else envelope.OF_FAILURE


def later(found, name, moment):
    """The UTCTime of a field, where it is after this moment."""
    value = value_in(found, name)
    utc = fields.utc_time(value) if value else None
    return utc if utc and fields.utc_seconds(utc) > fields.utc_seconds(moment) else None


class Mail:
    """A mail that is passed on: what was read of it, and the envelope that it gets."""

    def __init__(self, octets, wishes, table):
        if len(octets) > LONGEST_MAIL:
            raise Refused(TOO_LONG, f"a mail has at most {LONGEST_MAIL} octets here, and this one {len(octets)}")
        self.octets, self.wishes, self.table = octets, wishes, table
        self.message = parsed(octets)
        self.found = fields.fields_of(self.message)
        self.moment = moment_of(self.found, table)
        self.places = trace.places_of(self.found, table, self.moment)
        self.domain = trace.of_domain(table.prefix)
        said = "\0".join([wishes.sender, *wishes.recipients]).encode("utf-8", "surrogateescape")
        self.local = identifiers.digest_of(said + b"\0\0" + octets)

    def envelope(self, sender, names, local=None):
        bits = bits_for(self.wishes, self.found)
        made = Envelope(sender, self.domain, local or self.local, [(it, bits) for it in names])
        made.priority = PRIORITIES.get((value_in(self.found, "priority") or "").lower(), 0)
        made.deferred = later(self.found, "deferred-delivery", self.moment)
        made.latest = later(self.found, "latest-delivery-time", self.moment)
        named = value_in(self.found, "x400-content-identifier") or ""
        if 1 <= len(named) <= envelope.LONGEST_CONTENT_IDENTIFIER and set(named) <= p1.PRINTABLE:
            made.content_identifier = named
        made.places = self.places
        return made

    def message_apdus(self):
        """The mail as an interpersonal message, in pieces where it is too long."""
        sender, names = sender_name(self.wishes, self.table), recipient_names(self.wishes, self.table)
        default = f"{self.local}@{self.table.gateway}"
        content = None
        if len(self.octets) <= 2 * p1.LONGEST:  # encodings of MIME take up to twice the octets
            head, parts = message_of(self.message, self.table, sender, identifier=default)
            content = bodies.content_of(head, parts)
        if content is not None:
            apdu = envelope.message_octets(self.envelope(sender, names), content, p22.CONTENT_TYPE)
            if len(apdu) <= p1.LONGEST:
                return [(self.local, apdu)]
        return list(self.pieces(sender, names))

    def pieces(self, sender, names):
        """The mail cut into pieces, each a message with a file that says which one it is (RFC 2046, message/partial).
        Joined in their order they are the mail."""
        total = -(-len(self.octets) // PIECE)
        subject = fields.decoded(value_in(self.found, "subject") or "")
        for at in range(total):
            local = f"{self.local[:26]}-{at + 1}"
            head = Heading(identifiers.ipm_identifier(f"{local}@{self.table.gateway}")[0])
            head.originator = Descriptor(sender)
            head.to = [Recipient(Descriptor(it)) for it in names]
            head.subject = subject_octets(f"{at + 1}/{total} {subject}")[0]
            line = f'Content-Type: {PARTIAL}; id="{self.local}@{self.table.gateway}"; number={at + 1}; total={total}'
            octets = self.octets[at * PIECE:(at + 1) * PIECE]
            part = File(octets, f"message-{at + 1}-of-{total}.eml", [line])
            content = bodies.content_of(head, [part])
            yield local, envelope.message_octets(self.envelope(sender, names, local), content, p22.CONTENT_TYPE)


def apdus_of(octets, wishes, table):
    """The APDUs of a mail, each with the local part of its identifier."""
    try:
        it = Mail(octets, wishes, table)
        back = returned.apdu_of(it)
        return [back] if back is not None else it.message_apdus()
    except RecursionError as why:
        raise Refused(CANNOT_BE_READ, "the parts of the message are too deep within one another") from why
    except (ValueError, LookupError, TypeError, AttributeError, AssertionError) as why:
        # the parser of Python has faults of its own
        raise Refused(CANNOT_BE_READ, f"the message is malformed: {fields.plain(str(why))[:100]}") from why
