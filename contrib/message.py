#!/usr/bin/env python3
"""Makes an interpersonal message (X.420) for `mta submit`, of a text on standard input and perhaps files.

FROM and TO are O/R names in the text form of mta.tables(5), as C=GB;A=GOLD;S=BELL. IDENTIFIER is 1 to 32 printable
characters: the message's own in the originator's domain, so never use one twice. The text is UTF-8, and goes as IA5
text or in a part of ISO 8859 that has all of its characters; other texts go as a file (--attach). The APDU is written
to standard output.

FILE of --reply, --forward, --acknowledge and --discarded is a message: its content, as mta-content and mta-fetch write
it, or its APDU. TO may be left out with --reply, which goes to those who are to get replies, or else to the originator;
and with --acknowledge and --discarded, which go to the originator, take no text, and are notifications.
"""
import argparse
import os
import re
import sys
import time

sys.path.insert(0, os.path.join(os.path.dirname(os.path.realpath(__file__)), "lib"))
import notifications  # noqa: E402
import p1  # noqa: E402
import p22  # noqa: E402
import tool  # noqa: E402
import x690 as ber  # noqa: E402

NAME = "message.py"
LONGEST_IDENTIFIER = 32
ANSWER = "Re: "


def message(sender, recipient, identifier, content, report=False):
    """A message to one recipient with these octets as its content, of type 22."""
    return p1.message_octets(p1.name_from(sender), [p1.name_from(recipient)], identifier, content, report=report)


# ---- words


def name(text):
    try:
        return p1.complete(p1.name_from(text))
    except p1.BadName as why:
        raise argparse.ArgumentTypeError(why) from None


def identifier(text):
    is_printable = text.isascii() and text.isprintable()
    if not 1 <= len(text) <= LONGEST_IDENTIFIER or not is_printable or text != text.strip():
        raise argparse.ArgumentTypeError(
            f"an identifier has 1 to {LONGEST_IDENTIFIER} printable characters, and no space at its ends: {text!r}")
    return text


def moment(text):
    """A UTCTime that there is: the 30th of February is none."""
    if re.fullmatch(r"\d{12}Z", text):
        century = "19" if text >= "5" else "20"
        try:
            time.strptime(century + text[:-1], "%Y%m%d%H%M%S")
            if text[10:12] < "60":
                return text
        except ValueError:
            pass
    raise argparse.ArgumentTypeError(f"a moment is YYMMDDhhmmssZ, in UTC, and not {text!r}")


def words():
    it = argparse.ArgumentParser(prog=tool.called(NAME), description=__doc__,
                                 formatter_class=argparse.RawDescriptionHelpFormatter)
    it.add_argument("sender", metavar="FROM", type=name)
    it.add_argument("to", metavar="TO", type=name, nargs="*")
    it.add_argument("identifier", metavar="IDENTIFIER", type=identifier)
    it.add_argument("--copy", metavar="NAME", type=name, action="append", default=[],
                    help="another recipient, who is named as one of a copy")
    it.add_argument("--subject", metavar="TEXT", help="1 to 128 characters")
    it.add_argument("--attach", metavar="FILE", action="append", default=[], help="a file that goes with the text")
    it.add_argument("--forward", metavar="FILE", action="append", default=[], help="a message that goes with the text")
    kinds = it.add_mutually_exclusive_group()
    kinds.add_argument("--reply", metavar="FILE", help="the message that this one answers")
    kinds.add_argument("--acknowledge", metavar="FILE", help="say that this message was received, by a notification")
    kinds.add_argument("--discarded", metavar="FILE", help="say that this message was discarded, by a notification")
    kinds.add_argument("--raw", metavar="TYPE", type=int,
                       help="standard input is the content as it is, of this content type (0 to 32767)")
    heading_words(it)
    envelope_words(it)
    return it


def heading_words(it):
    it.add_argument("--receipt", action="store_true",
                    help="ask each recipient for a notification when the message is received, or discarded")
    it.add_argument("--reply-to", metavar="NAME", type=name, action="append", default=[], help="who is to get a reply")
    it.add_argument("--reply-by", metavar="MOMENT", type=moment, help="until when a reply is wanted")
    it.add_argument("--expires", metavar="MOMENT", type=moment, help="when the message says nothing any more")
    it.add_argument("--importance", choices=list(p22.IMPORTANCES.values()), default="normal")
    it.add_argument("--sensitivity", choices=list(p22.SENSITIVITIES.values()))


def envelope_words(it):
    it.add_argument("--report", action="store_true",
                    help="ask for a report of each delivery; a non-delivery is always reported")
    it.add_argument("--priority", choices=sorted(p1.PRIORITIES.values()), default="normal")
    it.add_argument("--deferred", metavar="MOMENT", type=moment, help="not to be delivered before, as YYMMDDhhmmssZ")
    it.add_argument("--latest", metavar="MOMENT", type=moment, help="latest delivery time, as YYMMDDhhmmssZ")


# ---- contents


def octets_of(path):
    with open(path, "rb") as file:
        return file.read()


def message_in(path):
    """The message of a file, which is a content or an APDU."""
    try:
        return p22.message_of(p22.content_in(octets_of(path)))
    except ber.Fault as why:
        tool.fail(NAME, f"{path}: {why}")


def subject_of(said, answered):
    subject = said.subject
    if subject is None:
        subject = answered.subject if answered else ""
        if subject and not subject.lower().startswith(ANSWER.lower()):
            subject = (ANSWER + subject)[:p22.LONGEST_SUBJECT]
    if len(subject) > p22.LONGEST_SUBJECT or not subject.isprintable():
        tool.fail(NAME, f"a subject has at most {p22.LONGEST_SUBJECT} printable characters")
    return subject


def text_of(octets):
    try:
        return octets.decode("utf-8-sig")
    except UnicodeDecodeError as why:
        tool.fail(NAME, f"the text is no UTF-8 at {why.start}; give it as a file, by --attach")


def own_identifier(text):
    """An identifier as X.420 has it, which is a PrintableString."""
    return "".join(it if it in p1.PRINTABLE else "-" for it in text)


def recipients_of(said, answered):
    """To whom it goes: those that are named, or else those who are to get a reply, or the originator."""
    originator = answered and (answered.originator or answered.identifier.user)
    found = said.to or answered and (said.reply and answered.reply_to or [originator])
    if not found or None in found:
        tool.fail(NAME, "the message names nobody to answer to: give TO" if answered else "TO is absent")
    return found


def notification_of(said, about):
    subject = p22.IpmIdentifier(about.identifier.user or about.originator, about.identifier.local)
    if said.discarded:
        return notifications.discarded(subject, said.sender)
    return notifications.receipt(subject, said.sender, time.strftime("%y%m%d%H%M%SZ", time.gmtime()))


def content_of(said, answered, standard_input):
    """The interpersonal message. Names of files are ASCII in it."""
    files = [(os.path.basename(path).encode("ascii", "replace").decode("ascii"), octets_of(path))
             for path in said.attach]
    forwarded = []
    for path in said.forward:
        message_in(path)  # what is none is refused
        forwarded.append(p22.content_in(octets_of(path)))
    replied_to = answered.identifier if answered else None
    try:
        return p22.content_of(
            said.sender, said.to, said.copy, own_identifier(said.identifier), subject_of(said, answered),
            text_of(standard_input), files, forwarded, receipt=said.receipt, replied_to=replied_to,
            expires=said.expires, reply_by=said.reply_by, reply_to=said.reply_to, importance=said.importance,
            sensitivity=said.sensitivity)
    except p22.NoCharset as why:
        tool.fail(NAME, f"{why}; give it as a file, by --attach")


def content(said):
    if said.raw is not None:
        return sys.stdin.buffer.read()
    path = said.reply or said.acknowledge or said.discarded
    about = message_in(path) if path else None
    said.to = recipients_of(said, about)
    if said.acknowledge or said.discarded:
        return notification_of(said, about)
    return content_of(said, about, sys.stdin.buffer.read())


def main():
    it = words()
    said = it.parse_intermixed_args()
    if not said.to and not (said.reply or said.acknowledge or said.discarded):
        it.error("TO is absent")
    kind = p22.CONTENT_TYPE if said.raw is None else said.raw
    if not 0 <= kind <= 32767:
        it.error("a content type is 0 to 32767")
    made = content(said)
    octets = p1.message_octets(said.sender, said.to + said.copy, said.identifier, made, kind, said.report,
                               said.priority, said.deferred, said.latest)
    if len(octets) > p1.LONGEST:
        tool.fail(NAME, f"the APDU has {len(octets)} octets, and mta takes {p1.LONGEST}")
    sys.stdout.buffer.write(octets)


if __name__ == "__main__":
    tool.run(NAME, main)
