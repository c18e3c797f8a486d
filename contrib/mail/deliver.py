"""Takes what the users' mailboxes got to mail.

Nothing is lost, and at most one message a stop comes twice: a message is given to `sendmail`, which answers 0 once it
has it on the disk, and only then is it marked as fetched. Where this stops between the two it is given again by the
next run, with the same identifier. One run at a time is made for a folder.
"""
import contextlib
import fcntl
import os
import subprocess
import tempfile

import copies
from boxes import MARKS
from mail import fields, pieces, to_mail
from mail.fetched import Message
from mail.identifiers import digest_of
from mail.mailbox import Boxes
from mail.pieces import Group
from mail.refusals import Refused
from mail.sent import Sent
from mail.to_mail import Way

LOCK = "mta-mail.lock"
TRY_LATER = 75
PATIENCE = 5 * 86400  # seconds for which a piece waits for the others of its mail
SENDMAIL = "/usr/sbin/sendmail"


class Stopped(Exception):
    """The mail system takes nothing now."""


class Deliverer:
    """One run: `said` are the words, and `told` takes a line for each thing that was done or went wrong."""

    def __init__(self, said, table, seconds, told):
        self.said, self.table, self.seconds, self.told = said, table, seconds, told
        self.sent, self.boxes, self.left = Sent(said.sent), None, 0

    def sendmail(self, made):
        """Gives a mail to the mail system. Whether it has it."""
        words = [self.said.sendmail, "-i", "-f", made.sender, "-N", "failure" if made.sender else "never",
                 "--", made.recipient]
        try:
            ran = subprocess.run(words, input=made.octets, stdout=subprocess.PIPE, stderr=subprocess.STDOUT, check=False)
        except OSError as why:
            raise Stopped(f"{self.said.sendmail}: {why.strerror}") from why
        said = fields.plain(ran.stdout.decode("utf-8", "replace")).strip()
        if ran.returncode == TRY_LATER or ran.returncode < 0:
            raise Stopped(f"{self.said.sendmail}: status {ran.returncode} {said}")
        if ran.returncode:
            self.told(f"{made.recipient}: {self.said.sendmail}: status {ran.returncode} {said}")
        return ran.returncode == 0

    def mail_of(self, found, user):
        """A message or report as a mail; what may not go on as one to its sender."""
        way = Way(self.table, user, self.seconds)
        kept = self.sent.record(found.subject.rpartition("/")[2]) if not isinstance(found, Message) else {}
        try:
            return to_mail.mail_of(found, way, kept)
        except Refused as why:
            return to_mail.loop_mail(found, why, way)

    def give(self, made, entries):
        """Gives a mail, and marks its entries once the mail system has it."""
        if not self.sendmail(made):
            self.left += len(entries)
            return
        for entry in entries:
            self.boxes.mark(entry)
            self.told(f"mailbox {entry.mailbox} entry {entry.number} item {entry.item} to {made.recipient}")

    def is_old(self, entry):
        return self.seconds - fields.utc_seconds(entry.moment) > PATIENCE

    def give_joined(self, found, key, group, user):
        """Gives the mail that a group of pieces is, unless a record says that this was done."""
        record = f"joined-{user.mailbox}-{key}"
        if not self.sent.record(record):
            if not self.sendmail(to_mail.joined_mail(found, group.octets(), Way(self.table, user, self.seconds))):
                self.left += len(group.entries)
                return
            self.sent.keep(record, {"joined": group.total})
        for entry in group.entries:
            self.boxes.mark(entry)
            self.told(f"mailbox {entry.mailbox} entry {entry.number} item {entry.item} joined to {user.address}")

    def give_entry(self, entry, user, items, groups):
        found = self.boxes.looked_at(entry, items)
        piece = pieces.piece_of(found) if isinstance(found, Message) and not self.is_old(entry) else None
        if piece is None:
            self.give(self.mail_of(found, user), [entry])
            return
        group = groups.setdefault(piece.key, Group(piece.total))
        group.add(entry, piece)
        if group.is_whole() or self.sent.record(f"joined-{user.mailbox}-{piece.key}"):
            self.give_joined(found, piece.key, groups.pop(piece.key), user)

    def run_mailboxes(self, mailboxes):
        had, emptied = self.boxes.deliveries(), Emptied(self.sent, self.said.folder)
        users = [it for it in self.table.users if not mailboxes or it.mailbox in mailboxes]
        waiting = [(user, self.boxes.new(user.mailbox)) for user in users
                   if had.get(user.mailbox) != emptied.had.get(user.mailbox)]
        entries = [it for _, found in waiting for it in found]
        items = self.boxes.items(entries) if entries else None
        for user, found in waiting:
            groups = {}
            for entry in found:
                self.give_entry(entry, user, items, groups)
            for group in groups.values():
                self.told(f"mailbox {user.mailbox} has {len(group.pieces)} of {group.total} pieces of a mail")
            if not groups and self.left == 0:
                emptied.had[user.mailbox] = had[user.mailbox]
        if waiting:
            emptied.keep()
        self.sent.forget_old(self.seconds)

    def run(self):
        """Takes all that is new to mail. Whether nothing was left that should have gone."""
        with locked(self.said.folder), tempfile.TemporaryDirectory(prefix="mta-mail-") as made:
            self.boxes = Boxes(self.said.folder, made, self.said.mta_store)
            self.run_mailboxes(set(self.said.mailbox))
        return self.left == 0


class Emptied:
    """Which deliveries a mailbox had had when nothing was left in it. As long as it has had no others nothing can be
    new, so that it need not be asked for. It holds for the spool and the marks that are there now."""

    def __init__(self, sent, folder):
        self.sent, self.name = sent, f"emptied-{digest_of(os.path.realpath(folder), 16)}"
        self.files = [os.stat(os.path.join(folder, it)).st_ino for it in (copies.SPOOL, MARKS)]
        kept = sent.record(self.name)
        self.had = dict(kept["had"]) if kept.get("files") == self.files else {}

    def keep(self):
        self.sent.keep(self.name, {"files": self.files, "had": self.had})


@contextlib.contextmanager
def locked(folder):
    """One run at a time; another one is an error."""
    with open(os.path.join(folder, LOCK), "ab") as file:
        try:
            fcntl.flock(file, fcntl.LOCK_EX | fcntl.LOCK_NB)
        except BlockingIOError as why:
            raise Stopped(f"another run for {folder} is under way") from why
        yield
