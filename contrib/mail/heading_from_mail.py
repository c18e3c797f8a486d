"""The heading of an interpersonal message (X.420) of the fields of a mail.

What the heading has no place for stays as a line of RFC 822 in the heading extension for such lines, and so does each
field of which the heading has less than the whole: the way back takes the line and not the heading's field.
"""
import base64
import re

import p1
import x690 as ber
from mail import addresses, fields, heading, identifiers
from mail.heading import Heading, Recipient
from mail.names import LONGEST_FREE_FORM, LONGEST_TELEPHONE, Descriptor
from mail.refusals import Refused
from texts import teletex

TELEPHONE = re.compile(r"Tel (.+)", re.I)
# comments that stand for what is asked of a recipient
ASKED = {"receipt notification requested": "receipt", "non-receipt notification requested": "non-receipt",
         "return of content requested": "return"}
REPLY_ASKED = "reply requested"
# fields of the message's form, of its envelope, and of its way here, which have places of their own
NOT_KEPT = {"return-path", "bcc", "resent-bcc", "mime-version", "priority", "deferred-delivery", "latest-delivery-time",
            "generate-delivery-report", "prevent-nondelivery-report", "x400-content-identifier",
            "disposition-notification-to", "x400-ipms-extension", "x400-structure"}
X_PRIORITY = {"1": 2, "2": 2, "4": 0, "5": 0}


class Reader:
    """Makes a heading of fields. `lines` are those that are kept."""

    def __init__(self, found, table):
        self.found, self.table = found, table
        self.kept = set()  # names of fields that stay as lines

    def values(self, name):
        return [value for key, value in self.found if key.lower() == name]

    def value(self, name):
        return next(iter(self.values(name)), None)

    def keep(self, name):
        self.kept.add(name)

    # ---- addresses

    def name_of(self, address):
        try:
            return addresses.name_of_address(address, self.table)
        except Refused:
            return None

    def descriptor(self, box, field):
        """A descriptor of an address. The field stays as a line where the descriptor has less than it."""
        name = self.name_of(box.address) if box.address else None
        free = box.display or (box.address if name is None else None)
        telephones = [found[1] for found in map(TELEPHONE.fullmatch, box.comments) if found]
        if name is None and box.address or free and not is_short_teletex(free) or len(telephones) > 1:
            self.keep(field)
        telephone = next(iter(telephones), None)
        if telephone is not None and (len(telephone) > LONGEST_TELEPHONE or not set(telephone) <= p1.PRINTABLE):
            self.keep(field)
            telephone = None
        return Descriptor(name, free or (None if name else "unknown"), telephone)

    def recipient(self, box, field):
        said = [it.lower() for it in box.comments]
        if any(it not in ASKED and it != REPLY_ASKED and not TELEPHONE.fullmatch(it) for it in said):
            self.keep(field)
        return Recipient(self.descriptor(box, field), [ASKED[it] for it in said if it in ASKED], REPLY_ASKED in said)

    def boxes(self, field):
        return [box for value in self.values(field) for box in fields.mailboxes(value)]

    def descriptors(self, field):
        return [self.descriptor(it, field) for it in self.boxes(field)]

    def recipients(self, field):
        return [self.recipient(it, field) for it in self.boxes(field)]

    # ---- identifiers, moments and words

    def identifiers(self, field):
        texts = [it for value in self.values(field) for it in fields.message_ids(value)]
        made = [identifiers.ipm_identifier(it) for it in texts]
        left = "".join(fields.MESSAGE_ID.sub("", value) for value in self.values(field))
        if not all(is_whole for _, is_whole in made) or left.strip():
            self.keep(field)
        return [it for it, _ in made]

    def moment(self, *names):
        """The UTCTime of the first of these fields that has one."""
        for name in names:
            made = fields.utc_time(self.value(name)) if self.value(name) else None
            if made is not None:
                return made
            if self.value(name):
                self.keep(name)
        return None

    def word(self, field, words, default):
        """The place of a field's word among these."""
        value = self.value(field)
        if value is None:
            return default
        if value.lower() in words:
            return words.index(value.lower())
        self.keep(field)
        return default


def is_short_teletex(text):
    octets, is_whole = teletex(text)
    return is_whole and len(octets) <= LONGEST_FREE_FORM


def take_originators(made, it, sender):
    """The originator is the sender, and whom it names as authors authorize; one author is the originator."""
    authors, senders = it.descriptors("from"), it.descriptors("sender")
    if senders or len(authors) != 1:
        made.originator = senders[0] if senders else Descriptor(sender)
        made.authorizing = authors
    else:
        made.originator = authors[0]
    if made.originator.name is None:
        made.originator.name = sender
        it.keep("from")
    if len(senders) > 1:
        it.keep("sender")


def take_related(made, it):
    """The first message that is answered; others are related ones."""
    answered, related = it.identifiers("in-reply-to"), it.identifiers("references")
    made.replied_to = answered[0] if answered else None
    made.related = related
    if len(answered) > 1:
        it.keep("in-reply-to")
    made.obsoleted = it.identifiers("supersedes") + it.identifiers("obsoletes")


def take_words(made, it):
    made.importance = it.word("importance", heading.IMPORTANCES, 1)
    if it.value("importance") is None and it.value("x-priority"):
        made.importance = X_PRIORITY.get(it.value("x-priority")[:1], 1)
    words = ["", *(each.lower() for each in heading.SENSITIVITIES.values())]
    made.sensitivity = it.word("sensitivity", words, 0) or None
    automatic = (it.value("auto-submitted") or "").lower().startswith("auto-forwarded")
    made.auto_forwarded = automatic or (it.value("autoforwarded") or "").lower() == "true"


def take_extensions(made, it):
    """Extensions of X.420 that a gateway wrote as fields."""
    for value in it.values("x400-ipms-extension"):
        kind, _, octets = value.partition(";")
        try:
            kind, octets = bytes.fromhex(kind.strip()), base64.b64decode("".join(octets.split()), validate=True)
            if ber.whole(kind).tag == ber.OBJECT_IDENTIFIER and (not octets or ber.whole(octets)):
                made.extensions.append((kind, octets))
        except (ValueError, ber.Fault):
            it.keep("x400-ipms-extension")


MAPPED = {"from", "sender", "to", "cc", "reply-to", "message-id", "in-reply-to", "references", "supersedes",
          "obsoletes", "subject", "expires", "expiry-date", "reply-by", "importance", "sensitivity", "autoforwarded"}


def ascii_line(name, value):
    """A field as a line of an IA5String: what is outside ASCII is in encoded words."""
    return f"{name}: {value if value.isascii() and value.isprintable() else fields.unstructured(value)}"


def kept_lines(it):
    """The lines that stay, in their order."""
    return [ascii_line(name, value) for name, value in it.found
            if name.lower() in it.kept or name.lower() not in MAPPED | NOT_KEPT
            and not name.lower().startswith("content-")]


def ask_all(made, it):
    """A wish for a receipt is one to all recipients, where no comment says whose it is."""
    found = made.to + made.copies
    if it.value("disposition-notification-to") and not any("receipt" in each.requests for each in found):
        for each in found:
            each.requests = tuple({*each.requests, "receipt", "non-receipt"})


def heading_from(found, table, sender, default_identifier):
    """The heading of these fields. The sender's name stands for that of an author who has none, and the identifier is
    that of a mail without one."""
    it = Reader(found, table)
    identified = it.identifiers("message-id")
    made = Heading(identified[0] if identified else identifiers.ipm_identifier(default_identifier)[0])
    take_originators(made, it, sender)
    made.to, made.copies, made.reply_to = it.recipients("to"), it.recipients("cc"), it.descriptors("reply-to")
    take_related(made, it)
    if it.value("subject") is not None:
        made.subject, is_whole = heading.subject_octets(fields.decoded(it.value("subject")))
        if not is_whole:
            it.keep("subject")
    made.expires, made.reply_by = it.moment("expires", "expiry-date"), it.moment("reply-by")
    take_words(made, it)
    take_extensions(made, it)
    ask_all(made, it)
    made.fields = kept_lines(it)
    return made
