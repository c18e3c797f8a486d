"""One connection that carries units, and the breaks that are asked for."""
import os
import signal
import socket
import struct

import units


SILENCE = 120  # seconds; a peer that is silent for so long is as good as gone, so that no run hangs


class Over(Exception):
    """The connection ended, or was dropped here."""


class BadUnit(Exception):
    """The next octets are no unit."""


class Break:
    """A break at unit `number` of a link, put or got: behind it, or in its place.

    Orderly (what was put still comes, what comes is thrown away), by a reset, or by a kill of this process."""

    def __init__(self, number, place="after", how="orderly"):
        self.number, self.place, self.how = number, place, how


class Link:
    """Units over a connected socket. Every unit put or got is told, and counted from 1."""

    def __init__(self, connection, say, breaks=None):
        self.connection, self.say, self.breaks = connection, say, breaks
        self.count = self.got = 0
        self.tap = None  # called with whether a unit is put, and its octets: before they are put, or once they came
        self.over = False
        connection.setsockopt(socket.IPPROTO_TCP, socket.TCP_NODELAY, 1)
        connection.settimeout(SILENCE)
        self.stream = connection.makefile("rb")

    def turn(self, place):
        if place == "after":
            self.count += 1
        reached = self.count + (place == "before")
        if self.breaks and (reached, place) == (self.breaks.number, self.breaks.place):
            self.say(f"break {place} unit {reached}")
            self.drop(self.breaks.how)
            raise Over()

    def put(self, unit):
        self.raw(units.write(unit), units.told(unit))

    def raw(self, octets, told):
        """Puts octets, whatever they are."""
        if self.over:
            raise Over()
        self.turn("before")
        if self.tap:
            self.tap(True, octets)
        try:
            self.connection.sendall(octets)
        except OSError:
            # nothing is put any more; what came before is still read
            self.say("the connection is lost")
            raise Over() from None
        self.say(f"put {told}")
        self.turn("after")

    def octets(self, count):
        try:
            found = self.stream.read(count)
        except OSError:
            found = b""
        if len(found) < count:
            self.say("the connection is over")
            raise Over()
        return found

    def get(self):
        """The next unit."""
        if self.over:
            raise Over()
        self.turn("before")
        self.got += 1
        length = int.from_bytes(self.octets(4), "big")
        if length > units.LONGEST:
            raise self.bad(f"a body of {length} octets")
        kind = self.octets(1)[0]
        if not 1 <= kind <= len(units.KINDS):
            raise self.bad(f"kind octet {kind}")
        body = self.octets(length)
        if self.tap:
            self.tap(False, units.frame(kind, body))
        try:
            unit = units.read(kind, body)
        except units.Bad as why:
            raise self.bad(f"a body of kind {kind}: {why}") from None
        self.say(f"got {units.told(unit)}")
        self.turn("after")
        return unit

    def bad(self, why):
        self.say(f"got no unit: {why}")
        return BadUnit()

    def finish(self):
        """Puts nothing more; what comes is still read."""
        try:
            self.connection.shutdown(socket.SHUT_WR)
        except OSError:
            pass

    def drop(self, how="orderly"):
        """Ends the connection. Orderly: what comes is thrown away until the other end is through too."""
        if self.over:
            return
        self.over = True
        if how == "kill":
            os.kill(os.getpid(), signal.SIGKILL)
        if how == "reset":
            self.connection.setsockopt(socket.SOL_SOCKET, socket.SO_LINGER, struct.pack("ii", 1, 0))
        else:
            self.finish()
            try:
                while self.stream.read1(65536):
                    pass
            except OSError:
                pass
        self.stream.close()
        self.connection.close()
