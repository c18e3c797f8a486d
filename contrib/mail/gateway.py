"""The gateway as a program: its table, its answers, and the two ways through it."""
import argparse
import sys

import x690 as ber
from mail import addresses, fields, to_mail, to_x400
from mail.fetched import fetched
from mail.refusals import CANNOT_BE_READ, NOT_WRITTEN, WRONG_SET_UP, Refused
from mail.sent import Sent
from mail.table import BadTable, table_of
from mail.to_mail import Way
from mail.to_x400 import Wishes

TABLE, SENT = "/etc/mta/mail.table", "/var/lib/mta-mail/sent"
# exit statuses of sysexits.h, by the first two numbers of a status code
DATA, NO_USER, TRY_LATER, NO_PERMISSION, WRONG_TABLE = 65, 67, 75, 77, 78
STATUSES = {"5.1": NO_USER, "5.7": NO_PERMISSION, "4.3": TRY_LATER}
NOTIFY = ("never", "success", "failure", "delay")


def notify_words(text):
    """The words of NOTIFY (RFC 3461)."""
    found = set(text.lower().split(","))
    if not found <= set(NOTIFY) or "never" in found and len(found) > 1:
        raise argparse.ArgumentTypeError(f"never, or success, failure and delay with commas, and not {text!r}")
    return found


def read_table(path):
    with open(path, encoding="utf-8") as file:
        return table_of(file.read(), addresses.name_of_address)


def field_sender(found):
    """The sender of a mail whose envelope is not at hand."""
    for name in ("return-path", "sender", "from"):
        for key, value in found:
            if key.lower() == name:
                boxes = fields.mailboxes(value)
                return (boxes[0].address or "") if boxes else ""
    return ""


def field_recipients(found):
    boxes = [box for key, value in found if key.lower() in ("to", "cc", "bcc") for box in fields.mailboxes(value)]
    return [it.address for it in boxes if it.address]


def wishes_of(said, octets):
    found = fields.fields_of(to_x400.parsed(octets))
    sender = field_sender(found) if said.sender is None else said.sender.strip("<>")
    return Wishes(sender, said.recipient or field_recipients(found), said.notify, said.envelope_id)


def kept_of(octets, wishes):
    """What is kept of a mail, so that a report on it is told in its own words."""
    found = fields.fields_of(to_x400.parsed(octets))
    kept = {key: next((value for name, value in found if name.lower() == key.lower()), None)
            for key in ("Message-ID", "Subject", "Date")}
    kept["envelope"] = wishes.envelope_id
    return {key: value for key, value in kept.items() if value}


def mail_to_x400(said, octets, table, output):
    wishes = wishes_of(said, octets)
    made = to_x400.apdus_of(octets, wishes, table)
    if said.drop is None:
        if len(made) > 1:
            raise Refused(to_x400.TOO_LONG, f"the message is {len(made)} APDUs, which go into a drop folder alone")
        output.buffer.write(made[0][1])
        return
    sent, kept = Sent(said.sent), kept_of(octets, wishes)
    for local, apdu in made:
        sent.put(local, apdu, kept, said.drop)


def user_of(mailbox, table):
    user = next((it for it in table.users if it.mailbox == mailbox), None)
    if user is None:
        raise Refused(WRONG_SET_UP, f"the table has no user of the mailbox {mailbox}")
    return user


def fetched_to_mail(said, octets, table, output, seconds):
    found = fetched(octets)
    subject = getattr(found, "subject", "").rpartition("/")[2]
    kept = Sent(said.sent).record(subject) if subject else {}
    made = to_mail.mail_of(found, Way(table, user_of(said.to_mail, table), seconds), kept)
    output.buffer.write(made.octets)


def print_mailboxes(table, output):
    for user in table.users:
        output.write(f"mailbox {user.mailbox} {user.name.text()}\n")


def passed_on(said, source, output, seconds):
    table = read_table(said.table)
    if said.mailboxes:
        print_mailboxes(table, output)
    elif said.to_x400:
        mail_to_x400(said, source.read(), table, output)
    else:
        fetched_to_mail(said, source.read(), table, output, seconds)


def run(said, source, output, seconds):
    """Passes one message on; answers the exit status. What is refused is told in one line."""
    try:
        passed_on(said, source, output, seconds)
        return 0
    except Refused as why:
        status, line = STATUSES.get(why.code[:3], DATA), f"{why.code} {fields.plain(why.words)}"
    except BadTable as why:
        status, line = WRONG_TABLE, f"{WRONG_SET_UP} {said.table}: {why}"
    except ber.Fault as why:
        status, line = DATA, f"{CANNOT_BE_READ} {why}"
    except OSError as why:
        status, line = TRY_LATER, f"{NOT_WRITTEN} {why.filename}: {why.strerror}"
    except MemoryError:
        status, line = TRY_LATER, f"{NOT_WRITTEN} out of memory"
    # to a terminal or a pipe of mail this is what a message is returned with, so it is no part of what was made
    (sys.stderr if not said.drop and not said.to_x400 else output).write(line + "\n")
    return status
