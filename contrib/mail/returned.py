"""Mails that tell what became of another one, as X.400 has them: a DSN (RFC 3464) on a message that this gateway gave
to mail is a report, and an MDN (RFC 8098) a notification. What is not told so is an ordinary message."""
import email
import email.policy
import re

import p1
import p22
from mail import addresses, codes, envelope, fields, identifiers, notifications
from mail.envelope import LONGEST_SUPPLEMENT, Row
from mail.names import Descriptor
from mail.parts_from_mail import payload_octets
from mail.refusals import Refused
from mail.trace import of_domain

IDENTIFIER = re.compile(r"\[(/.*/);\s*(.{1,32})\]")
RECIPIENT = re.compile(r"(\d{1,5}) ([01]{1,64}) (/.*/)")
FAILED, DELIVERED = "failed", "delivered"
DISPOSITION = re.compile(r"([a-z-]+)/([a-z-]+)\s*;\s*([a-z]+)", re.I)
DISPLAYED, DELETED = ("displayed",), ("deleted", "denied")


def report_parts(message, kind):
    """The parts of a multipart/report of this type; none of another message."""
    said = str(message.get_param("report-type", "", unquote=True)).lower()
    inner = message.get_payload()
    return inner if message.get_content_type() == "multipart/report" and said == kind and isinstance(inner, list) else []


def part_of(parts, *kinds):
    return next((it for it in parts if it.get_content_type() in kinds), None)


def groups_of(part):
    """The groups of fields of a part, each as names and values."""
    text = payload_octets(part).replace(b"\r\n", b"\n")
    return [fields.fields_of(email.message_from_bytes(it.strip(b"\n") + b"\n\n", policy=email.policy.compat32))
            for it in re.split(rb"\n[ \t]*\n", text.strip(b"\n")) if it.strip()]


def value_in(found, name):
    return next((value for key, value in found if key.lower() == name), "")


def returned_fields(parts):
    """The fields of the mail that is told of."""
    part = part_of(parts, "message/rfc822", "text/rfc822-headers")
    if part is None:
        return []
    inner = part.get_payload()
    if part.get_content_type() == "message/rfc822" and isinstance(inner, list) and inner:
        return fields.fields_of(inner[0])
    return fields.fields_of(email.message_from_bytes(payload_octets(part), policy=email.policy.compat32))


def printable_words(text):
    return "".join(it if it in p1.PRINTABLE else " " for it in text)[:LONGEST_SUPPLEMENT].strip()


def row_of(group, told, moment):
    """What a group of fields says of the recipient whom the returned mail names; None where it says nothing final."""
    action, status = value_in(group, "action").lower(), value_in(group, "status")
    found = RECIPIENT.fullmatch(told)
    if not found or action not in (FAILED, DELIVERED) or not 1 <= int(found[1]) <= 32767:
        return None
    name = addresses.name_of_text(found[3])
    if action == DELIVERED:
        return Row(name, int(found[1]), found[2], moment, delivered=moment)
    reason, diagnostic = codes.reason_of(status)
    words = printable_words(value_in(group, "diagnostic-code").partition(";")[2] or status)
    return Row(name, int(found[1]), found[2], moment, reason=reason, diagnostic=diagnostic, supplement=words)


def report_of(mail):
    """The report that a DSN is, or None."""
    parts = report_parts(mail.message, "delivery-status")
    status = part_of(parts, "message/delivery-status")
    found = returned_fields(parts)
    subject = IDENTIFIER.fullmatch(value_in(found, "x400-mts-identifier"))
    if status is None or not subject or mail.wishes.sender or len(mail.wishes.recipients) != 1:
        return None
    domain = of_domain(addresses.name_of_text(subject[1]))
    rows = [row_of(it, value_in(found, "x400-recipient"), mail.moment) for it in groups_of(status)]
    rows = [it for it in rows if it is not None]
    if not rows or domain.one("C") is None or domain.one("A") is None:
        return None
    to = addresses.name_of_address(mail.wishes.recipients[0], mail.table)
    return mail.local, envelope.report_octets(to, mail.domain, mail.local, (domain, subject[2]), rows[:1])


def notification_in(mail, parts):
    """The notification that an MDN's fields are, or None."""
    told = part_of(parts, "message/disposition-notification")
    found = [it for group in groups_of(told) for it in group] if told is not None else []
    disposition = DISPOSITION.match(value_in(found, "disposition"))
    subject = fields.message_ids(value_in(found, "original-message-id"))
    if not disposition or not subject:
        return None
    made = notifications.Notification(identifiers.ipm_identifier(subject[0])[0])
    if disposition[3].lower() in DISPLAYED:
        made.moment = fields.utc_time(value_in(mail.found, "date")) or mail.moment
        is_manual = disposition[1].lower() == "manual-action"
        made.mode = notifications.MANUAL if is_manual else notifications.AUTOMATIC
    elif disposition[3].lower() not in DELETED:
        return None
    return made


def notification_of(mail):
    """The message with the notification that an MDN is, or None."""
    made = notification_in(mail, report_parts(mail.message, "disposition-notification"))
    if made is None:
        return None
    boxes = fields.mailboxes(value_in(mail.found, "from"))
    sender = next((it.address for it in boxes if it.address and mail.table.is_user(it.address)), mail.table.postmaster)
    if sender is None:
        return None
    name = addresses.name_of_address(sender, mail.table)
    made.originator = Descriptor(name)
    names = [addresses.name_of_address(it, mail.table) for it in mail.wishes.recipients]
    told = mail.envelope(name, names)
    told.recipients = [(it, envelope.NOTHING) for it in names]
    content = notifications.content_of(made)
    return mail.local, envelope.message_octets(told, content, p22.CONTENT_TYPE)


def apdu_of(mail):
    """The identifier and the APDU of what a mail tells of another one; None where it is an ordinary message."""
    try:
        return report_of(mail) or notification_of(mail)
    except Refused:
        return None
