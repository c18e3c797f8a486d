"""Two peers over loopback, each a thread with its record in memory, and what has to hold behind every run."""
import socket
import threading

import apdu
from initiator import Initiator
from link import Break, Link
from record import Memory, Record
from responder import Responder
from session import Values
from units import TWO_WAY


class Wrong(Exception):
    """What has to hold does not."""


class Case:
    """Messages of one size, a checkpoint size, a window and a mode; in the two-way mode both ends send."""

    def __init__(self, size, checkpoint, window, mode, count=1):
        self.size, self.checkpoint, self.window, self.mode, self.count = size, checkpoint, window, mode, count
        texts = [apdu.message("C=GB;A=SILVER;S=BELL", "C=GB;A=GOLD;S=WATT", b"M%04d" % n, apdu.content_of(size))
                 for n in range(1, 2 * count + 1)]
        self.out, self.back = texts[:count], texts[count:] if mode == TWO_WAY else []

    def told(self):
        way = "two-way" if self.mode == TWO_WAY else "monologue"
        return f"content {self.size} checkpoint {self.checkpoint} window {self.window} {way}"

    def values(self, own, peer, give_up=0):
        secrets = {b"silver": b"ours", b"gold": b"theirs"}
        return Values(own, peer, secrets[own], secrets[peer], self.mode, self.checkpoint, self.window, give_up=give_up)


class Pair:
    """The two peers of a case, kill and restart behind every session: only what their records hold goes on."""

    def __init__(self, case):
        self.case = case
        self.stores = {"initiator": Memory(), "responder": Memory()}
        for side, messages in (("initiator", case.out), ("responder", case.back)):
            record = Record(self.stores[side])
            for octets in messages:
                record.step("queue", octets)
        self.lines = {"initiator": [], "responder": []}
        self.ends, self.counts = {}, {}
        self.give_up = 0
        self.tap = None  # called with the side and the octets of each unit that is put

    def side(self, name, role, own, peer, connection, breaks):
        lines = self.lines[name]
        link = Link(connection, lines.append, breaks)
        if self.tap:
            link.tap = lambda put, octets: put and self.tap(name, octets)
        values = self.case.values(own, peer, self.give_up if name == "initiator" else 0)
        try:
            self.ends[name] = role(link, Record(self.stores[name]), values).run()
        except BaseException as why:
            self.ends[name] = f"failed: {why!r}"
            link.drop("reset")
            raise
        finally:
            self.counts[name] = link.count

    def session(self, breaks=None):
        """One association; `breaks` has a Break for a side."""
        breaks = breaks or {}
        calling, called = connected()
        also = ("responder", Responder, b"gold", b"silver", called, breaks.get("responder"))
        other = threading.Thread(target=self.side, args=also, daemon=True)
        other.start()
        self.side("initiator", Initiator, b"silver", b"gold", calling, breaks.get("initiator"))
        other.join()
        for name, end in self.ends.items():
            if end.startswith("failed"):
                raise Wrong(f"{name} {end}")
        return self.ends["initiator"]

    def until_closed(self, most=6, breaks=()):
        """Sessions until one closes; the i-th has the i-th of these breaks."""
        breaks = list(breaks)
        for _ in range(most + len(breaks)):
            end = self.session(breaks.pop(0) if breaks else None)
            if end == "closed" and not breaks:
                return
        raise Wrong(f"{most} sessions behind the last break none is closed")

    def state(self, name):
        return Record(self.stores[name]).state

    def check(self):
        """Each message arrived exactly once, in its order, and is known to have been sent."""
        ways = ("initiator", "responder", self.case.out), ("responder", "initiator", self.case.back)
        for one, other, messages in ways:
            found = self.state(other).received
            if found != messages:
                raise Wrong(f"{other} has {len(found)} messages of {len(messages)}, or their octets differ")
            states = [status for _, status in self.state(one).messages]
            if any(status != "sent" for status in states):
                raise Wrong(f"{one} says of its messages: {states}")


LISTENER = socket.create_server(("127.0.0.1", 0))
ONE = threading.Lock()


def connected():
    """Two ends of one connection over loopback: the one that called, and the one that was called."""
    with ONE:
        return socket.create_connection(LISTENER.getsockname()), LISTENER.accept()[0]


def break_at(side, number, place, how="orderly"):
    return {side: Break(number, place, how)}
