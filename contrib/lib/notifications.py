"""Notifications of interpersonal messages (X.420): that a recipient received one, or did not, written and read."""
import p22
import x690 as ber
from x690 import CONTEXT, element, tagged

ORIGINATOR, PREFERRED, CHOICE = (CONTEXT, 1), (CONTEXT, 2), (CONTEXT, 0)
NON_RECEIPT_FIELDS, RECEIPT_FIELDS = (CONTEXT, 0), (CONTEXT, 1)
MODES = {0: "manual", 1: "automatic"}
REASONS = {0: "discarded", 1: "auto-forwarded"}
DISCARD_REASONS = {0: "expired", 1: "obsoleted", 2: "user-subscription-terminated"}


# ---- writing


def notification(subject, originator, choice):
    """The content of a notification on a message; the fields of the choice are of receipt or of none."""
    common = subject.octets() + tagged(1, p22.descriptor(originator))
    return tagged(1, common, tagged(0, choice))


def receipt(subject, originator, moment):
    """That a message was received, at a moment, by somebody who says so."""
    return notification(subject, originator, tagged(1, element((CONTEXT, 0), moment.encode("ascii"))))


def discarded(subject, originator):
    """That a message was discarded, and nobody received it."""
    return notification(subject, originator, tagged(0, ber.integer(0, (CONTEXT, 0))))


# ---- reading


class Notification:
    """What is read of a notification: lines, and the message that a non-receipt returns."""

    def __init__(self):
        self.lines, self.returned = [], None


def receipt_lines(found):
    yield "received", found[CONTEXT, 0].text()
    yield "acknowledged", MODES.get(found[CONTEXT, 1].number(), "?") if (CONTEXT, 1) in found else MODES[0]
    if (CONTEXT, 2) in found:
        yield "information", found[CONTEXT, 2].text()


def non_receipt_lines(found):
    for number, key, words in ((0, "reason", REASONS), (1, "discard-reason", DISCARD_REASONS)):
        yield from p22.number_line(found, (CONTEXT, number), key, words)
    if (CONTEXT, 2) in found:
        yield "comment", found[CONTEXT, 2].text()


def read_notification(it):
    found, made = p22.ber_tags(it), Notification()
    inside = found[CHOICE].only()
    fields = p22.ber_tags(inside)
    is_receipt = inside.tag == RECEIPT_FIELDS
    made.lines.append(("notification", "receipt" if is_receipt else "non-receipt"))
    made.lines.append(("on", p22.identifier_of(found[p22.IPM_IDENTIFIER]).text()))
    for tag, key in ((ORIGINATOR, "from"), (PREFERRED, "preferred-recipient")):
        if tag in found:
            made.lines.append((key, p22.descriptor_text(found[tag])))
    made.lines += receipt_lines(fields) if is_receipt else non_receipt_lines(fields)
    if not is_receipt and (CONTEXT, 3) in fields:
        made.returned = p22.read_message(fields[CONTEXT, 3])
    return made


def is_notification(it):
    return it.tag == p22.NOTIFICATION and not p22.is_apdu(it)


def notification_of(octets):
    """The notification that a content is."""
    try:
        return read_notification(ber.whole(octets))
    except p22.UNREADABLE as why:
        raise ber.Fault(f"no notification: {why!r}") from why
