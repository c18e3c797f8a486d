"""The journal of a spool, as mta.spool(5) lays it out, read without its lock while `mta` may append to it.

A spool has two areas, or one where it is older, and one of them is current. A record counts once its gate is open, and
what stands before a gate does not change any more while its area is current. So whoever reads the current area from
front to back, up to the first closed gate, has a beginning of the history. Where a snapshot is put in the place of all
records meanwhile, another area is current for that time.
"""
import calendar
import os
import time

from steps import SNAPSHOT, NotASpool, step_of

MAGIC = b"MTASPL01"
AREAS = MAGIC + bytes([1, 0, 0, 0, 10, 255])  # how a spool of two areas begins
LONGEST_EMPTY = 9  # so many octets, whatever they are, are an empty spool
ONLY_GATE, FIRST_GATE = 8, 23  # where the records begin in the only area, and in the first of two
FRAME = 5  # octets of a gate and a length
SEEN = 64  # octets of the first record by which it is known again
MOST = 536870912  # octets of a spool
LONGEST_BODY, LONGEST_FIRST = 4194304, 268435456
OPEN = bytes([1])
FROM_1950 = calendar.timegm((1950, 1, 1, 0, 0, 0))


class WrittenAnew(NotASpool):
    """Another area became current while one was read."""


class Journal:
    """The records of a spool's file, from the first one on. `at` is the place of the next gate, and `first` that of the
    first one in the current area; `areas` is what the file said of its two areas, and `beginning` how the first record
    began, where one was read."""

    def __init__(self, path):
        self.path, self.file, self.at, self.first = path, None, ONLY_GATE, ONLY_GATE
        self.areas, self.beginning = b"", b""

    def is_open(self):
        """Opens the file where it is there and more than an empty spool."""
        if self.file is None:
            try:
                self.file = open(self.path, "rb")
            except FileNotFoundError:
                return False
            head = self.octets_at(0, LONGEST_EMPTY + 1)
            if len(head) <= LONGEST_EMPTY:
                self.close()
                return False
            if not head.startswith(MAGIC):
                raise NotASpool(f"{self.path} is no spool that this program knows")
        return True

    def close(self):
        if self.file is not None:
            self.file.close()
            self.file = None

    def octets_at(self, at, count):
        return os.pread(self.file.fileno(), count, at)

    def size(self):
        return os.fstat(self.file.fileno()).st_size

    # ---- areas

    def said_areas(self):
        """The selector of two areas, and the place of the second one; nothing where there is one area."""
        head = self.octets_at(0, FIRST_GATE + 1)
        return head[len(AREAS):FIRST_GATE] if len(head) > FIRST_GATE and head.startswith(AREAS) else b""

    def first_gate(self):
        """Where the current area begins, by what was said of areas."""
        if self.areas[:1] != OPEN:
            return FIRST_GATE if self.areas else ONLY_GATE
        high = int.from_bytes(self.areas[1:], "big")
        if not FIRST_GATE < high < self.size():
            raise NotASpool(f"not a spool at {len(AREAS) + 1}")
        return high

    def find_area(self):
        """Finds the current area. Where records were read they are gone on from; where they were replaced by a
        snapshot, it is read next."""
        self.areas = self.said_areas()
        first = self.first_gate()
        is_there = self.octets_at(first, len(self.beginning)) == self.beginning and first <= self.first
        if self.beginning and is_there and self.at + first - self.first < self.size():
            self.at += first - self.first  # the second area's record is moved into the first one
        elif self.beginning and self.octets_at(first, FRAME + 1)[FRAME:] != bytes([SNAPSHOT]):
            raise NotASpool(f"{self.path} was replaced")
        else:
            self.at, self.beginning = first, b""
        self.first = first

    # ---- records

    def next_record(self, file):
        """The frame and the body of the next record; None where its gate is closed."""
        frame = file.read(FRAME)
        is_opened, size = frame[:1] == OPEN, int.from_bytes(frame[1:], "big")
        is_short = size <= (LONGEST_FIRST if self.at == self.first else LONGEST_BODY)
        body = file.read(size) if is_opened and is_short else b""
        if self.said_areas() != self.areas:
            raise WrittenAnew(f"{self.path} was written anew while it was read")
        if self.first > FIRST_GATE and is_opened != (self.at == self.first):
            raise NotASpool(f"not a spool at {self.first}")  # the second area has one record
        if is_opened and (len(frame) < FRAME or not is_short or len(body) < size):
            raise NotASpool(f"not a spool at {self.at}")
        return (frame, body) if is_opened else None

    def records(self):
        """The bodies from here to the first closed gate, each with the place of its gate."""
        if not self.is_open():
            return
        self.find_area()
        # read anew: what was read ahead the last time may have changed behind the closed gate, and at it
        with open(self.file.fileno(), "rb", closefd=False) as file:
            file.seek(self.at)
            while (record := self.next_record(file)) is not None:
                frame, body = record
                self.beginning = self.beginning or frame + body[:SEEN]
                place, self.at = self.at, self.at + FRAME + len(body)
                yield place, body

    def steps(self):
        """The steps from here to the first closed gate."""
        for place, body in self.records():
            if body[:1] == bytes([SNAPSHOT]) and place != self.first:
                raise NotASpool(f"not a spool at {place}: a snapshot behind other steps")
            try:
                yield step_of(body)
            except NotASpool as why:
                raise NotASpool(f"not a spool at {place}: {why}") from None

    def follow(self, seconds=0.5):
        """The steps from here on, for as long as the program runs; where a snapshot is put in the place of all records,
        from that on. A file that was put in the place of this one is an error, since it has another history."""
        while True:
            try:
                yield from self.steps()
            except WrittenAnew:
                continue  # from the area that is current now
            time.sleep(seconds)
            if self.is_another():
                raise NotASpool(f"{self.path} was replaced")

    def is_another(self):
        if self.file is None:
            return False
        try:
            return os.stat(self.path).st_ino != os.fstat(self.file.fileno()).st_ino
        except FileNotFoundError:
            return True

    def octets(self):
        """How many octets of the spool are taken."""
        return self.at + 1


def unix_of(moment):
    """Seconds since 1970 of a moment of the spool, which counts from 1950."""
    return moment + FROM_1950


def clock_text(seconds):
    """Seconds since 1970 as the tools print them."""
    return time.strftime("%Y-%m-%dT%H:%M:%SZ", time.gmtime(seconds))


def moment_text(moment):
    return clock_text(unix_of(moment))


def utc_time(moment):
    """The moment as `mta` prints it."""
    return time.strftime("%y%m%d%H%M%SZ", time.gmtime(unix_of(moment)))
