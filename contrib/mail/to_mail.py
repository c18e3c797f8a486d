"""What a mailbox got as a mail: a message, a report as a DSN (RFC 3464), a notification as an MDN (RFC 8098)."""
import base64

import p1
import reports
import x690 as ber
from mail import addresses, bodies, codes, fields, heading, identifiers, notifications, trace
from mail.fetched import Message
from mail.heading_to_mail import boxes_text, mailbox_of
from mail.names import Descriptor
from mail.parts_to_mail import Entity, base64_lines, message_entity, multipart, text_entity

IPM, IPN = (ber.CONTEXT, 0), (ber.CONTEXT, 1)
CONTENT_TYPES = {2: "P2-1984 (2)", 22: "P2-1988 (22)"}
DISCLOSURE = 0  # the bit of the indicators
PRIORITY_NAMES = {1: "non-urgent", 2: "urgent"}


class Mail:
    """A mail: the sender of its envelope, which is empty for what nobody answers, its recipient, and its octets."""

    def __init__(self, sender, recipient, octets):
        self.sender, self.recipient, self.octets = sender, recipient, octets


class Way:
    """To whom a mail goes, and by what: the table, the user, and the moment as seconds since 1970."""

    def __init__(self, table, user, seconds):
        self.table, self.user, self.seconds = table, user, seconds

    def received(self, local):
        """The trace field of this gateway."""
        by = f"by {self.table.gateway} (mta-mail) with X400 id {fields.plain(local).replace(' ', '-')}"
        return "Received", f"{by} for <{self.user.address}>; {fields.date_text(self.seconds)}"

    def postmaster(self):
        """Who tells what became of a message."""
        return f"postmaster@{self.table.gateway}"


def identifier_text(identifier):
    domain, local = identifier
    return f"[{addresses.text_of(domain)};{fields.plain(local)}]"


# ---- messages


def own_recipients(found, way):
    """The recipients of the envelope whose name is the user's."""
    return [it for it in found.recipients if it[2].normal() == way.user.name.normal()]


def trace_fields(found):
    """Where a message has been, the last place first: its lists, its domains, and the agents in them."""
    for name, moment in reversed(found.history):
        when = f"; {trace.moment_text(moment)}" if moment else ""
        yield "DL-Expansion-History", f"{addresses.text_of(name)}{when}"
    for place in reversed(found.domains):
        yield "X400-Received", trace.x400_received(place)
    for place in reversed(found.agents):
        yield "X400-Received", trace.x400_received(place)


def envelope_fields(found, way):
    """What the envelope says, as RFC 2156 names it."""
    yield "X400-MTS-Identifier", identifier_text(found.identifier)
    yield "X400-Originator", addresses.address_of_name(found.originator, way.table)
    kind = found.content_type
    yield "X400-Content-Type", CONTENT_TYPES.get(kind, f"({kind})" if kind is not None else "other")
    if found.content_identifier:
        yield "X400-Content-Identifier", fields.unstructured(found.content_identifier)
    if found.priority:
        yield "Priority", PRIORITY_NAMES.get(found.priority, "normal")
    for name, utc in (("Deferred-Delivery", found.deferred), ("Latest-Delivery-Time", found.latest)):
        if utc:
            yield name, trace.moment_text(utc)
    own = own_recipients(found, way)
    for number, bits, name in own[:1]:
        yield "X400-Recipient", f"{number} {bits} {addresses.text_of(name)}"
    if found.indicators[DISCLOSURE:DISCLOSURE + 1] == "1":
        names = (addresses.address_of_name(name, way.table) for _, _, name in found.recipients)
        yield "X400-Recipients", ", ".join(names)
    for octets in found.extensions:
        yield "X400-MTS-Extension", base64.b64encode(octets).decode("ascii")


def sent_at(found, way):
    """When a message was sent: the moment of its first trace element."""
    moments = [it.moment for it in found.domains[:1]]
    return trace.moment_text(moments[0]) if moments else fields.date_text(way.seconds)


def before_heading(found, head, way):
    """The fields that stand before those of the heading."""
    made = [way.received(found.identifier[1]), *trace_fields(found), *envelope_fields(found, way)]
    kept = {it.partition(":")[0].lower() for it in head.fields}
    if "date" not in kept:
        made.append(("Date", sent_at(found, way)))
    if head.originator is None and not head.authorizing:
        head.originator = Descriptor(found.originator)
    if is_receipt_asked(head, way) and head.originator is not None and head.originator.name is not None:
        made.append(("Disposition-Notification-To", boxes_text([mailbox_of(Descriptor(head.originator.name),
                                                                           way.table)])))
    return made


def is_receipt_asked(head, way):
    """Whether the heading asks this user for a receipt."""
    return any("receipt" in it.requests and it.descriptor.name is not None
               and it.descriptor.name.normal() == way.user.name.normal() for it in head.recipients())


def read_content(octets):
    """The heading and the parts of an interpersonal message, or a notification; None where it is neither."""
    try:
        it = ber.whole(octets)
        if it.tag == IPM:
            head, body = it.children()
            return heading.heading_of(head), bodies.parts_of(body)
        if it.tag == IPN:
            return notifications.notification_of(it)
    except (ber.Fault, KeyError, ValueError, IndexError, TypeError, RecursionError):
        pass
    return None


def raw_entity(found, way):
    """A message whose content is none of X.420, as a file in a mail."""
    words = "The content of this message is no interpersonal message of X.420. It is the file of this mail.\n"
    part = Entity([("Content-Type", "application/octet-stream"), ("Content-Disposition",
                  'attachment; filename="content"'), ("Content-Transfer-Encoding", "base64")],
                  base64_lines(found.content))
    body = multipart("mixed", [text_entity(words), part], "r")
    made = [way.received(found.identifier[1]), *trace_fields(found), *envelope_fields(found, way),
            ("Date", sent_at(found, way)), ("From", addresses.address_of_name(found.originator, way.table)),
            ("To", way.user.address), ("Message-ID", f"<{own_id(found)}>"), ("MIME-Version", "1.0")]
    return Entity([*made, *body.fields], body.body)


def own_id(found):
    """A message identifier of that of the envelope."""
    domain, local = found.identifier
    return identifiers.message_id(identifiers.IpmIdentifier(local, domain))


def message_mail(found, way):
    """A message as a mail. One that may not go on is refused."""
    trace.check_way(found.domains, found.agents, way.table)
    sender = addresses.address_of_name(found.originator, way.table)
    read = read_content(found.content)
    if isinstance(read, notifications.Notification):
        return notification_mail(found, read, way)
    if read is None:
        return Mail(sender, way.user.address, raw_entity(found, way).octets())
    head, parts = read
    made = message_entity(head, parts, way.table, before=before_heading(found, head, way))
    return Mail(sender, way.user.address, made.octets())


# ---- what became of a message


def told_mail(kind, way, subject, words, second, third, found_before):
    """A multipart/report from the gateway to the user."""
    parts = [text_entity(words), second] + ([third] if third is not None else [])
    body = multipart("report", parts, "d", f" report-type={kind};")
    made = [*found_before, ("Date", fields.date_text(way.seconds)), ("From", f"X.400 gateway <{way.postmaster()}>"),
            ("To", way.user.address), ("Subject", subject), ("Auto-Submitted", "auto-replied"),
            ("MIME-Version", "1.0")]
    return Mail("", way.user.address, Entity([*made, *body.fields], body.body).octets())


def group(pairs):
    return "".join(f"{fields.folded(name, value)}\n" for name, value in pairs if value)


def row_fields(row, way):
    """What a report says of a recipient, as fields of RFC 3464."""
    address = addresses.address_of_name(row.name, way.table)
    if row.delivered:
        action, status, words = "delivered", "2.1.5", None
    else:
        action, status, words = "failed", codes.status_of(row.diagnostic), reports.words(row.reason, row.diagnostic)
    diagnostic = "-" if row.diagnostic is None else row.diagnostic
    code = f"x400; {row.reason} {diagnostic} ({words})" if words else None
    return [("Original-Recipient", f"rfc822; {address}"), ("Final-Recipient", f"x400; {addresses.text_of(row.name)}"),
            ("Action", action), ("Status", status), ("Diagnostic-Code", code),
            ("X400-Supplementary-Information", fields.unstructured(row.supplement) if row.supplement else None),
            ("X400-Delivery-Time", trace.moment_text(row.delivered) if row.delivered else None),
            ("X400-Arrival-Time", trace.moment_text(row.arrival))]


def row_words(row, way):
    address = addresses.address_of_name(row.name, way.table)
    if row.delivered:
        return f"{address}\n    was delivered, {trace.moment_text(row.delivered)}\n"
    more = f"\n    {fields.plain(row.supplement)}" if row.supplement else ""
    return f"{address}\n    was not delivered: {reports.words(row.reason, row.diagnostic)}{more}\n"


def status_entity(groups):
    return Entity([("Content-Type", "message/delivery-status")], "\n".join(groups).encode("ascii"))


def headers_entity(pairs):
    return Entity([("Content-Type", "text/rfc822-headers")], group(pairs).encode("ascii"))


def returned_entity(report, sent, way):
    """The message that a report is on: its content, where the report has it, else what was kept of it."""
    read = read_content(report.returned) if report.returned else None
    if isinstance(read, tuple):
        inner = message_entity(*read, way.table, "dm")
        return Entity([("Content-Type", "message/rfc822")], inner.octets())
    kept = [(key, sent[key]) for key in ("Message-ID", "Subject", "Date") if sent.get(key)]
    return headers_entity([("X400-MTS-Identifier", fields.plain(report.subject)), *kept])


def report_mail(report, way, sent):
    """A report as a DSN. `sent` is what was kept of the mail that it is on."""
    failed = any(not it.delivered for it in report.rows)
    first = group([("Reporting-MTA", f"x400; {addresses.text_of(reporting(report))}"),
                   ("Original-Envelope-Id", sent.get("envelope"))])
    words = ["This report came from the network of X.400, on your message", f"    {fields.plain(report.subject)}"]
    words += [f"    {key}: {fields.decoded(sent[key])}" for key in ("Subject", "Date") if sent.get(key)]
    words = "\n".join(words) + "\n\n" + "\n".join(row_words(it, way) for it in report.rows)
    subject = "Your message was not delivered" if failed else "Your message was delivered"
    groups = [first, *(group(row_fields(it, way)) for it in report.rows)]
    before = [way.received(report.identifier), *trace_fields_of_report(report),
              ("Message-ID", f"<{identifiers.digest_of(report.identifier)}@{way.table.gateway}>")]
    before += [("In-Reply-To", sent["Message-ID"])] if sent.get("Message-ID") else []
    return told_mail("delivery-status", way, subject, words, status_entity(groups),
                     returned_entity(report, sent, way), before)


def reporting(report):
    """The domain that made a report."""
    return p1.name_from(report.identifier.rpartition("/")[0])


def trace_fields_of_report(report):
    return [("X400-Received", trace.x400_received(it)) for it in reversed(report.domains)]


def notification_mail(found, told, way):
    """A notification as an MDN."""
    subject_id = identifiers.message_id(told.subject)
    who = told.originator if told.originator and told.originator.name else Descriptor(found.originator)
    address = addresses.address_of_name(who.name, way.table)
    if told.moment:
        said, mode = "displayed", "automatic" if told.mode == notifications.AUTOMATIC else "manual"
        words = f"{address}\nreceived your message <{subject_id}>, {trace.moment_text(told.moment)}.\n"
    else:
        said, mode = "deleted", "automatic"
        why = notifications.REASONS.get(told.reason, f"reason {told.reason}")
        more = notifications.DISCARD_REASONS.get(told.discard_reason)
        words = f"{address}\ndid not receive your message <{subject_id}>: {why}{f', since {more}' if more else ''}.\n"
        words += f"{fields.plain(told.comment)}\n" if told.comment else ""
    second = group([("Reporting-UA", f"{way.table.gateway}; mta-mail"), ("Final-Recipient", f"rfc822; {address}"),
                    ("Original-Message-ID", f"<{subject_id}>"),
                    ("Disposition", f"{mode}-action/MDN-sent-{'manually' if mode == 'manual' else 'automatically'}; "
                     f"{said}"),
                    ("X400-Receipt-Time", trace.moment_text(told.moment) if told.moment else None)])
    before = [way.received(found.identifier[1]), *trace_fields(found), *envelope_fields(found, way),
              ("Message-ID", f"<{own_id(found)}>"), ("In-Reply-To", f"<{subject_id}>")]
    made = told_mail("disposition-notification", way, "Read" if told.moment else "Not read", words,
                     Entity([("Content-Type", "message/disposition-notification")], second.encode("ascii")),
                     headers_entity([("Message-ID", f"<{subject_id}>")]), before)
    return made


def loop_mail(found, why, way):
    """A DSN to the sender of a message that may not go on to its recipient."""
    sender = addresses.address_of_name(found.originator, way.table)
    first = group([("Reporting-MTA", f"dns; {way.table.gateway}")])
    row = group([("Final-Recipient", f"rfc822; {way.user.address}"), ("Action", "failed"), ("Status", why.code),
                 ("Diagnostic-Code", f"x-mta-mail; {why.words}")])
    words = f"Your message to {way.user.address} was not delivered:\n{why.words}.\n"
    third = headers_entity([it for it in envelope_fields(found, way)
                            if it[0] in ("X400-MTS-Identifier", "X400-Recipient")])
    made = told_mail("delivery-status", way, "Your message was not delivered", words, status_entity([first, row]),
                     third, [("Message-ID", f"<{identifiers.digest_of(own_id(found) + way.user.mailbox)}"
                              f"@{way.table.gateway}>")])
    made.recipient = sender
    return made


def joined_mail(found, octets, way):
    """A mail that came in pieces, the last of which was found here, with the fields of its way before its own."""
    trace.check_way(found.domains, found.agents, way.table)
    before = [way.received(found.identifier[1]), *trace_fields(found), *envelope_fields(found, way)]
    sender = addresses.address_of_name(found.originator, way.table)
    return Mail(sender, way.user.address, Entity(before, b"").head() + octets)


def mail_of(found, way, sent=None):
    """What a mailbox got, as a mail."""
    return message_mail(found, way) if isinstance(found, Message) else report_mail(found, way, sent or {})
