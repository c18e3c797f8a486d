"""Notifications of X.420 (receipt and non-receipt), written and read."""
import x690 as ber
from mail.names import descriptor_of, identifier_of, tags
from x690 import APPLICATION, CONTEXT, element, tagged

MANUAL, AUTOMATIC = 0, 1
DISCARDED, AUTO_FORWARDED = 0, 1  # reasons of a non-receipt
REASONS = {DISCARDED: "the message was discarded", AUTO_FORWARDED: "the message was forwarded automatically"}
DISCARD_REASONS = {0: "it had expired", 1: "another message took its place", 2: "the subscription had ended"}


class Notification:
    """A notification on the message of an identifier. It is a receipt where it has a moment (a UTCTime), and else a
    non-receipt with a reason."""

    def __init__(self, subject, originator=None, preferred=None, moment=None, mode=MANUAL, reason=DISCARDED,
                 discard_reason=None, comment=None):
        self.subject, self.originator, self.preferred = subject, originator, preferred
        self.moment, self.mode = moment, mode
        self.reason, self.discard_reason, self.comment = reason, discard_reason, comment


def fields_of_receipt(it):
    mode = ber.integer(it.mode, (CONTEXT, 1)) if it.mode != MANUAL else b""
    return tagged(1, ber.primitive(0, it.moment.encode("ascii")), mode)


def fields_of_non_receipt(it):
    discard = ber.integer(it.discard_reason, (CONTEXT, 1)) if it.discard_reason is not None else b""
    comment = ber.primitive(2, it.comment.encode("ascii")) if it.comment else b""
    return tagged(0, ber.integer(it.reason, (CONTEXT, 0)), discard, comment)


def content_of(it):
    """The content that a notification is."""
    originator = tagged(1, it.originator.octets()) if it.originator else b""
    preferred = tagged(2, it.preferred.octets()) if it.preferred else b""
    choice = tagged(0, fields_of_receipt(it) if it.moment else fields_of_non_receipt(it))
    return tagged(1, element((APPLICATION, 11), it.subject.octets(), True), choice, originator, preferred)


def number_in(found, number, default):
    return found[CONTEXT, number].number() if (CONTEXT, number) in found else default


def notification_of(it):
    """The notification that an element is, whose tag is [1]."""
    found = tags(it)
    made = Notification(identifier_of(found[APPLICATION, 11]))
    made.originator = descriptor_of(found[CONTEXT, 1]) if (CONTEXT, 1) in found else None
    made.preferred = descriptor_of(found[CONTEXT, 2]) if (CONTEXT, 2) in found else None
    choice = found[CONTEXT, 0].only()
    inside = tags(choice)
    if choice.tag == (CONTEXT, 1):
        made.moment, made.mode = inside[CONTEXT, 0].text(), number_in(inside, 1, MANUAL)
    else:
        made.reason, made.discard_reason = number_in(inside, 0, DISCARDED), number_in(inside, 1, None)
        made.comment = inside[CONTEXT, 2].text() if (CONTEXT, 2) in inside else None
    return made
