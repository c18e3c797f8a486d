"""The fields of a mail of the heading of an interpersonal message (X.420)."""
import base64
import re

import x690 as ber
from mail import addresses, fields, heading, identifiers
from mail.fields import Mailbox
from mail.heading_from_mail import REPLY_ASKED

ASKED_TEXT = {"receipt": "Receipt notification requested", "non-receipt": "Non-receipt notification requested",
              "return": "Return of content requested"}
LINE = re.compile(r"([!-9;-~]+): ?([\x20-\x7e]*)")
# lines that a heading may not bring: of the mail's form and envelope, and of what happened to it here
FOREIGN = re.compile(r"(content-.*|mime-version|return-path|bcc|resent-bcc|x400-ipms-extension|x400-structure)", re.I)


def mailbox_of(descriptor, table, comments=()):
    """A descriptor as an address: one without a formal name is the name of an empty group."""
    telephone = [f"Tel {fields.plain(descriptor.telephone)}"] if descriptor.telephone else []
    comments = [*telephone, *comments]
    if descriptor.name is None:
        return Mailbox(None, fields.plain(descriptor.free or "unknown"), comments)
    address = addresses.address_of_name(descriptor.name, table)
    return Mailbox(address, fields.plain(descriptor.free or ""), comments)


def recipient_box(recipient, table):
    comments = [ASKED_TEXT[it] for it in heading.REQUESTS if it in recipient.requests]
    if recipient.is_reply_asked:
        comments.append(REPLY_ASKED.capitalize())
    return mailbox_of(recipient.descriptor, table, comments)


def boxes_text(boxes):
    return ", ".join(fields.mailbox_text(it) for it in boxes)


def ids_text(found):
    return " ".join(f"<{identifiers.message_id(it)}>" for it in found)


def author_fields(made, table):
    """Who wrote it, and who sent it where these are others."""
    originator = [mailbox_of(made.originator, table)] if made.originator else []
    if made.authorizing:
        yield "From", boxes_text([mailbox_of(it, table) for it in made.authorizing])
        yield "Sender", boxes_text(originator)
    else:
        yield "From", boxes_text(originator)


def moment_text(utc):
    """A UTCTime as a date; as it is where it has another form."""
    try:
        return fields.date_text(ber.utc_seconds(utc))
    except (ber.Fault, ValueError, OverflowError):
        return utc


def own_fields(made, table):
    """The fields that the heading has places for, empty ones too."""
    yield from author_fields(made, table)
    for name, found in (("To", made.to), ("Cc", made.copies), ("Bcc", made.blind)):
        yield name, boxes_text([recipient_box(it, table) for it in found])
    yield "Reply-To", boxes_text([mailbox_of(it, table) for it in made.reply_to])
    subject = made.subject_text()
    yield "Subject", fields.unstructured(subject) if subject else ""
    yield "Message-ID", ids_text([made.identifier])
    yield "In-Reply-To", ids_text([made.replied_to] if made.replied_to else [])
    yield "References", ids_text(made.related)
    yield "Supersedes", ids_text(made.obsoleted)
    yield "Expires", moment_text(made.expires) if made.expires else ""
    yield "Reply-By", moment_text(made.reply_by) if made.reply_by else ""
    yield "Importance", heading.IMPORTANCES[made.importance] if made.importance in (0, 2) else ""
    yield "Sensitivity", heading.SENSITIVITIES.get(made.sensitivity, "")
    yield "Autoforwarded", "TRUE" if made.auto_forwarded else ""
    for kind, octets in made.extensions:
        yield "X400-IPMS-Extension", f"{kind.hex()}; {wrapped(octets)}"


def wrapped(octets):
    text = base64.b64encode(octets).decode("ascii")
    return " ".join(text[at:at + 64] for at in range(0, len(text), 64))


def kept_fields(made):
    """The lines of RFC 822 that the heading brought, as names and values."""
    found = [LINE.fullmatch(it) for it in made.fields]
    return [(it[1], it[2]) for it in found if it and not FOREIGN.fullmatch(it[1])]


def fields_of(made, table):
    """The fields of a heading. A line that it brought stands in the place of what it has itself."""
    kept = kept_fields(made)
    names = {name.lower() for name, _ in kept}
    own = [(name, value) for name, value in own_fields(made, table) if value and name.lower() not in names]
    return own + kept
