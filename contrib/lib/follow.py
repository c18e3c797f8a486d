"""Follows the spool of an agent over all that becomes of its file, so that each step is told once.

What was told is a place: how the history begins, where its last record stands, and which octets that has. A spool that
shrinks begins with a snapshot of what its records led to; what these had after the place is taken from an archive, where
there is one (mta-archive). Where the counts of the snapshot are others than those of what was told, steps are missing,
and a notice says so. A file that was put in the place of the spool is another spool, told from its beginning; what the
former one still had is told first.
"""
import hashlib
import os
import time
from typing import NamedTuple

import journal
import state
import stations
import steps
from archives import archives_in

HEAD = 4096  # octets of the beginning of a history by which it is known again


class Another(Exception):
    """The file has another history now than the one that was read."""


def digest_of(octets):
    return hashlib.sha256(octets).hexdigest()[:32]


class Place(NamedTuple):
    """Behind a record of a history. `at` counts from the first gate; `counts` are those of the state there, and `when`
    is the second since 1970 at which that was seen."""

    head: int
    digest: str
    at: int
    last: int
    last_digest: str
    counts: dict
    when: int


class Step(NamedTuple):
    """A step, with the state that it leaves and what it meant. `record` names it among all histories."""

    now: state.State
    word: str
    fields: dict
    meant: dict
    record: str


class Notice(NamedTuple):
    """Something beside the steps: its word, its words for a line, and its fields."""

    word: str
    words: str
    said: dict


class OneHistory(journal.Journal):
    """A journal that is read for as long as it begins as it did."""

    def find_area(self):
        is_read = bool(self.beginning)
        try:
            super().find_area()
        except journal.NotASpool as why:
            if is_read:
                raise Another from why
            raise
        if is_read and not self.beginning:
            raise Another


def counts_of(now):
    """What shows that two states are the same: counts, and how far each open lane is."""
    lanes = {str(it.number): [it.generation, it.phase, it.activity, it.receiving, it.received]
             for it in now.lanes.values()}
    return {"items": len(now.items), "pending": len(now.pending()), "opened": now.opened, "lanes": lanes}


class History:
    """A history, gone through from its beginning, with the state that it leaves."""

    def __init__(self, path):
        self.journal, self.now, self.calls = OneHistory(path), state.State(), stations.Calls()
        self.head, self.last, self.last_digest = b"", 0, ""

    def steps(self):
        """The steps from here to the first closed gate."""
        for place, body in self.journal.records():
            record = journal.OPEN + len(body).to_bytes(journal.FRAME - 1, "big") + body
            try:
                word, fields = steps.step_of(body)
            except journal.NotASpool as why:
                raise journal.NotASpool(f"not a spool at {place}: {why}") from None
            meant = self.now.take(word, fields)
            self.calls.see(word, fields, meant.get("lane"))
            self.head += record[:HEAD - len(self.head)]
            self.last, self.last_digest = place - self.journal.first, digest_of(record)
            yield Step(self.now, word, fields, meant, f"{self.last}-{self.last_digest[:16]}")

    def place(self):
        return Place(len(self.head), digest_of(self.head), self.journal.at - self.journal.first, self.last,
                     self.last_digest, counts_of(self.now), int(time.time()))

    def is_behind(self, place):
        """Whether the place is further on than what was read."""
        return place is not None and self.journal.at - self.journal.first < place.at

    def is_moved(self):
        """Whether another file with records stands in the place of this one."""
        return self.journal.is_another() and os.path.exists(self.journal.path) and OneHistory(
            self.journal.path).is_open()


def has_place(path, place):
    """Whether the history of a file comes by a place."""
    it = journal.Journal(path)
    if place is None or not it.is_open():
        it.close()
        return False
    try:
        it.find_area()
        head = it.octets_at(it.first, place.head)
        last = it.octets_at(it.first + place.last, place.at - place.last)
        return digest_of(head) == place.digest and digest_of(last) == place.last_digest
    except (OSError, journal.NotASpool):
        return False
    finally:
        it.close()


class Follower:
    """All that is there and was not told. `told` is the place up to which it was, None for nothing; `archive` a folder
    with archives. `place` is the place behind what was given last."""

    def __init__(self, path, archive=None, told=None):
        self.path, self.archive, self.told = path, archive, told
        self.history = None

    def place(self):
        if self.history is None or not self.history.last_digest:
            return self.told
        return self.told if self.history.is_behind(self.told) else self.history.place()

    def untold(self):
        """The steps and notices from here to what is there now."""
        while True:
            try:
                if self.history is None:
                    yield from self.found()
                elif self.history.is_moved():
                    yield from self.rest()
                    continue
                if self.history is not None:
                    yield from self.history.steps()
                return
            except journal.WrittenAnew:
                if self.history.is_behind(self.told):
                    self.leave()  # not read as far as it was told, so it is begun anew
            except Another:
                self.leave()

    def leave(self):
        """The history that is read is over, or begins anew."""
        self.told, self.history = self.place(), None

    def rest(self):
        """What a file that was moved away still has, before the one in its place is read."""
        yield from self.history.steps()
        self.leave()

    def found(self):
        """Finds the spool's history: in it what was told is passed over. What archives have of histories before it is
        given first."""
        if not OneHistory(self.path).is_open():
            return
        for path in self.to_read():
            history = History(path)
            self.history = history
            if has_place(path, self.told):
                yield from self.passed_over(history)
            else:
                yield from self.begins(history)
            if path != self.path and self.history is not None:
                yield from history.steps()
                self.leave()

    def to_read(self):
        """The files to be read: from the last one that has what was told on, or from the first one behind it."""
        files = [*(archives_in(self.archive) if self.archive else ()), self.path]
        if self.told is None:
            return files[-1:]
        having = [at for at, it in enumerate(files) if has_place(it, self.told)]
        if having:
            return files[having[-1]:]
        return [it for it in files[:-1] if os.stat(it).st_mtime > self.told.when] + files[-1:]

    def passed_over(self, history):
        """Reads on to the place that was told."""
        for _ in history.steps():
            if not history.is_behind(self.told):
                break
        self.told = None
        return
        yield

    def begins(self, history):
        """The first step of a history that was not told, with a notice where steps may be missing before it."""
        before, self.told = self.told, None
        for it in history.steps():
            if before is not None:
                yield from notices_of(before.counts, it)
            yield it
            return
        self.told, self.history = before, None  # it has no step yet


def notices_of(before, step):
    """What is to be said of a history that begins, after what was told before it."""
    if step.word != "snapshot":
        words = f"spool another one begins behind item {before['items']}"
        yield Notice("spool", words, {"before": before["items"]})
        return
    after = counts_of(step.now)
    if after != before:
        was, now = ({key: it[key] for key in ("items", "pending", "opened")} for it in (before, after))
        words = [" ".join(f"{key} {count}" for key, count in it.items()) for it in (was, now)]
        yield Notice("gap", f"gap steps are missing: told up to {words[0]}; the snapshot has {words[1]}",
                     {"before": was, "after": now})
