#!/usr/bin/env python3
"""Peers that mean a station ill, each for as long as it is let: rogues.py KIND PORT NAME.

Each pauses for a hundredth of a second behind each thing that it does, so that fifteen of them do not use up the
processors of a machine.
"""
import os
import random
import socket
import struct
import sys
import time

import apdu
from agent import connect
from link import Link, Over
from units import (LONGEST, LONGEST_PIECE, TWO_WAY, Accept, Bind, Data, End, Open, Please, Recover, Reference, Resume,
                   Start, Sync, frame, write)

ROGUES = {}
OWN, OTHERS = b"ours", b"theirs"  # passwords: the rogue's, and the one that it expects
MOMENT = "500101000000Z"
MINUTE = 60
PAUSE = 0.01  # seconds
BATCH = 100  # units of a piece that is put at once


def rogue(does):
    """What a rogue does again and again, by its name."""
    ROGUES[does.__name__] = does
    return does


class Rogue:
    def __init__(self, port, name):
        self.port, self.name, self.lane = port, name.encode(), 0
        self.chance = random.Random(name)
        self.kept = []

    def octets(self, most):
        return self.chance.randbytes(self.chance.randrange(1, most))

    def reference(self, lane):
        return Reference(self.name, MOMENT, b"%010d" % lane)

    def session(self, data=None):
        """A session that is opened, and answered: by a lane of its own, or by this connection data."""
        link = Link(connect(self.port), lambda _: None)
        if data is None:
            # a number of the process, so that no lane of an earlier one is asked for again
            self.lane += 1
            reference = self.reference(os.getpid() * 1000 + self.lane)
            data = Bind(self.name, OWN)
        else:
            reference = data.reference
        link.put(Open(self.name, reference, 0, 3, TWO_WAY, data))
        if not isinstance(link.get(), Accept):
            raise Over()
        return link, reference


def forever(does, it):
    """Again and again, whatever becomes of a connection."""
    while True:
        try:
            does(it)
        except (OSError, Over):
            pass
        time.sleep(PAUSE)


@rogue
def closes(it):
    """Connections that are closed at once."""
    connect(it.port).close()


@rogue
def babbles(it):
    """Connections that bring random octets."""
    with connect(it.port) as connection:
        connection.sendall(it.octets(20_000))


@rogue
def is_silent(it):
    """More connections than a station keeps, which bring nothing."""
    it.kept.append(connect(it.port))
    if len(it.kept) > 100:
        it.kept.pop(0).close()


@rogue
def drips(it):
    """An octet a minute of a unit of the greatest length, within a session and before one."""
    link, _ = it.session()
    link.put(Start(1))
    early = [connect(it.port) for _ in range(10)]
    for octet in frame(5, bytes(LONGEST)):
        for connection in (link.connection, *early):
            connection.sendall(bytes((octet,)))
        time.sleep(MINUTE)


@rogue
def is_deaf(it):
    """It has an activity confirmed again and again, and reads nothing."""
    link, reference = it.session()
    message = apdu.message("C=GB;A=SILVER;S=BELL", "C=GB;A=GOLD;S=TRASH", it.name, b"")
    for unit in (Start(1), Data(message), End(1)):
        link.put(unit)
    link.get()
    link.drop()
    link, _ = it.session(Recover(reference))
    link.connection.setsockopt(socket.SOL_SOCKET, socket.SO_RCVBUF, 4096)
    link.connection.settimeout(None)
    again = b"".join(write(unit) for unit in (Resume(1, 1), Data(b"x"), End(1)))
    while True:
        link.connection.sendall(again * BATCH)
        time.sleep(PAUSE)


@rogue
def is_great(it):
    """Units of the greatest size, which are no messages: in one piece, and in segments of one octet."""
    link, _ = it.session()
    segments = b"\x04\x01x" * ((LONGEST - 5) // 3)
    segments = b"\x24\x83" + len(segments).to_bytes(3, "big") + segments
    for activity in range(1, 1_000_000, 2):
        for unit in (Start(activity), Data(bytes(LONGEST_PIECE)), End(activity), Start(activity + 1)):
            link.put(unit)
        link.raw(frame(5, segments), "segments")
        link.put(End(activity + 1))
        link.get()
        link.get()
        time.sleep(PAUSE)


@rogue
def syncs(it):
    """Pieces of one octet without end, each of which has to be kept."""
    link, _ = it.session()
    link.put(Start(1))
    for number in range(1, LONGEST_PIECE):
        link.put(Data(b"x"))
        link.put(Sync(number))
        link.get()
        time.sleep(PAUSE)


@rogue
def asks(it):
    """It asks for the turn without end."""
    link, _ = it.session()
    again = write(Please(0)) * BATCH
    while True:
        link.connection.sendall(again)
        time.sleep(PAUSE)


@rogue
def guesses(it):
    """Another password for each session, and a reset."""
    connection = connect(it.port)
    reference = it.reference(it.chance.randrange(10**9))
    password = b"%d" % it.chance.getrandbits(9)
    connection.sendall(write(Open(it.name, reference, 0, 3, TWO_WAY, Bind(it.name, password))))
    connection.recv(100)
    connection.setsockopt(socket.SOL_SOCKET, socket.SO_LINGER, struct.pack("ii", 1, 0))
    connection.close()


def main():
    kind, port, name = sys.argv[1:]
    os.nice(19)
    forever(ROGUES[kind], Rogue(int(port), name))


if __name__ == "__main__":
    main()
