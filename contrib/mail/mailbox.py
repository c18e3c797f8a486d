"""The mailboxes of an agent that may serve, of one copy of its spool: what is new is looked at without a mark, and
marked by `mta_store` once it may be."""
import os
import subprocess

import boxes
import copies
import journal
import p1
import state
from mail import envelope
from mail.fetched import fetched, of_octets

NO_SUCH_MAILBOX = 10


class Entry:
    """An entry of a mailbox: its number, when it came, as a UTCTime, and the number of its item."""

    def __init__(self, mailbox, line):
        number, self.status, self.moment, _, item = line.split(" ")
        self.mailbox, self.number, self.item = mailbox, number, int(item)

    def is_new(self):
        return self.status == "new"


class Failed(Exception):
    """What `mta_store` answered."""


class Boxes:
    """Mailboxes of the agent in a folder, of a copy that is in `made`. In made/marked the marks are the agent's own, in
    made/looked they are others, so that what is looked at there is not marked."""

    def __init__(self, folder, made, program=None):
        self.folder, self.made, self.program = folder, made, boxes.program_of(program)
        spool = os.path.join(folder, copies.SPOOL)
        if not os.path.exists(spool):
            raise FileNotFoundError(2, "no such spool", spool)
        copy = os.path.join(made, copies.SPOOL)
        if not any(copies.copied(spool, copy) for _ in range(copies.TRIES)):
            raise journal.WrittenAnew(f"{spool} was written anew while it was copied")
        for name in ("marked", "looked"):
            os.mkdir(os.path.join(made, name))
            os.symlink(copy, os.path.join(made, name, copies.SPOOL))
        marks = os.path.abspath(boxes.make_marks(folder, spool))
        os.symlink(marks, os.path.join(made, "marked", boxes.MARKS))
        self.wanted = set()

    def called(self, where, *words, others=()):
        ran = subprocess.run([self.program, *words], cwd=os.path.join(self.made, where), stdin=subprocess.DEVNULL,
                             stdout=subprocess.PIPE, check=False)
        if ran.returncode not in (0, *others):
            said = ran.stdout.decode("latin-1").splitlines()
            raise Failed(f"{os.path.basename(self.program)} {' '.join(words)}: {said[-1] if said else ran.returncode}")
        return ran.stdout if ran.returncode == 0 else b""

    def deliveries(self):
        """How many deliveries each mailbox has had, and the moment of the last one. None of them goes out of a spool."""
        it, found = state.State(), {}

        def add(mailbox, moment):
            found[mailbox] = [found.get(mailbox, [0])[0] + 1, moment]

        for word, fields in self.journal().steps():
            meant = it.take(word, fields)
            if word == "deliver":
                add(meant["mailbox"](), fields["moment"])
            elif word == "snapshot":
                found = {}
                for each in fields["deliveries"]:
                    add(bytes(each["mailbox"]).decode("ascii"), each["moment"])
        return found

    def new(self, mailbox):
        """What is new in a mailbox; nothing where the tables that were recorded do not name it yet."""
        lines = self.called("marked", "list", mailbox, others=(NO_SUCH_MAILBOX,)).decode("ascii").splitlines()
        return [it for it in (Entry(mailbox, line) for line in lines) if it.is_new()]

    def items(self, entries):
        """The items of these entries, of one reading of the spool, by their numbers, and those that they are made of."""
        numbers = {it.item for it in entries}
        first = state.replay(self.journal(), numbers)
        sources = {first.item(it).source for it in numbers if first.item(it) is not None} - {None, 0}
        return state.replay(self.journal(), numbers | sources) if sources - numbers else first

    def journal(self):
        return journal.Journal(os.path.join(self.made, copies.SPOOL))

    def looked_at(self, entry, items):
        """The message or report of an entry."""
        it = items.item(entry.item)
        if it is not None and it.octets is not None and not it.is_emptied:
            return of_octets(bytes(it.octets))
        found = fetched(self.called("looked", "fetch", entry.mailbox, entry.number))
        if it is not None and it.source:
            add_of_source(found, it, items.item(it.source))
        return found

    def mark(self, entry):
        """Marks an entry as fetched, in the agent's own marks."""
        self.called("marked", "fetch", entry.mailbox, entry.number)


def add_of_source(found, item, source):
    """What the text of a list's copy does not have: the lists that it came through, and the agents before them."""
    if source is None or source.octets is None:
        found.history = [(it, None) for it in item.apdu.history]
        return
    apdu = p1.apdu_of(bytes(source.octets))
    before = envelope.history_of(apdu)
    found.agents = envelope.internal_trace_of(apdu)
    found.history = before + [(it, None) for it in item.apdu.history[len(before):]]
