#!/usr/bin/env python3
"""A capture of what the peer and itself put, and whether tshark reads the same with our dissector.

`capture.py FOLDER DISSECTOR` writes FOLDER/capture.pcap, has tshark read it, and compares units, activities,
checkpoint numbers and the identifiers of the messages. The packets are made here, so nobody has to be allowed to
capture. With `--call HOST:PORT` a foreign responder is called in place of the peer's own.
"""
import argparse
import os
import socket
import struct
import subprocess
import sys
import threading
from collections import defaultdict

import foreign
import units
from initiator import Initiator
from link import Break
from pairs import Case, Pair, break_at
from units import MONOLOGUE, TWO_WAY, End

CUT = 700  # octets of a segment: units are cut, and a segment may hold the end of one and the beginning of the next
PORTS = {"initiator": 50_000, "responder": 1001}
LINES = ("mta.kind", "mta.activity", "mta.checkpoint_number")


class Capture:
    """Segments of TCP over IPv4, in the order in which they were put, in the form of pcap without a link layer."""

    def __init__(self, path):
        self.file, self.one, self.moment = open(path, "wb"), threading.Lock(), 0
        self.file.write(struct.pack("<IHHiIII", 0xA1B2C3D4, 2, 4, 0, 0, 65535, 101))
        self.session, self.rests = 0, {}
        self.put, self.ends = defaultdict(list), 0

    def flush(self):
        for side, octets in self.rests.items():
            if octets:
                self.segment(side, octets)
        self.file.flush()

    def begin(self):
        self.flush()
        self.session += 1
        self.next = {"initiator": 1000, "responder": 5000}
        self.rests = {"initiator": b"", "responder": b""}

    def tap(self, side, octets):
        with self.one:
            unit = units.read(octets[4], octets[5:])
            self.put[self.session, side].append(unit)
            self.ends += isinstance(unit, End)
            # what is left of a unit goes with the next one of its side, but an End waits for nothing
            held = self.rests[side] + octets
            whole = len(held) - len(held) % CUT if isinstance(unit, units.Data) else len(held)
            for at in range(0, whole, CUT):
                self.segment(side, held[at:min(at + CUT, whole)])
            self.rests[side] = held[whole:]

    def segment(self, side, octets):
        other = "responder" if side == "initiator" else "initiator"
        ports = {name: PORTS[name] + (self.session if name == "initiator" else 0) for name in PORTS}
        places = ports[side], ports[other], self.next[side], self.next[other]
        tcp = struct.pack(">HHIIBBHHH", *places, 0x50, 0x18, 65535, 0, 0)
        addresses = bytes((10, 0, 0, 1)), bytes((10, 0, 0, 2))
        if side == "responder":
            addresses = addresses[::-1]
        size = 40 + len(octets)
        ip = struct.pack(">BBHHHBBH", 0x45, 0, size, 0, 0x4000, 64, 6, 0) + addresses[0] + addresses[1]
        self.moment += 1
        header = struct.pack("<IIII", self.moment // 1000, self.moment % 1000 * 1000, size, size)
        self.file.write(header + ip + tcp + octets)
        self.next[side] += len(octets)


def numbers_of(those):
    """What the dissector has to show of these units: kinds, activities, checkpoint numbers."""
    kinds = [units.KINDS.index(type(unit)) + 1 for unit in those]
    activities = [unit.activity for unit in those if hasattr(unit, "activity")]
    return [[str(it) for it in row] for row in
            (kinds, activities, [unit.number for unit in those if hasattr(unit, "number")])]


def associations(capture):
    """A message each way: unbroken, then over three associations with two breaks, all of one lane."""
    for size, breaks in ((0, []), (3_000, [("initiator", 14, "after"), ("responder", 9, "before")])):
        pair = Pair(Case(size, 1, 3, TWO_WAY))
        pair.tap = capture.tap
        breaks = [break_at(*it) for it in breaks] + [None]
        for it in breaks:
            capture.begin()
            pair.session(it)
        pair.check()


def foreign_associations(capture, arguments):
    """Messages to a foreign responder: unbroken, then over associations with two breaks."""
    side = foreign.Side(arguments)
    values = side.values(TWO_WAY if arguments.mode == "twa" else MONOLOGUE, 1, 3)
    for size, breaks in ((0, [None]), (3_000, [Break(14), Break(9, "before"), None])):
        side.queue(size)
        for it in breaks:
            capture.begin()
            connection = socket.create_connection(foreign.where(arguments.call))
            side.session(Initiator, connection, values, it,
                         lambda put, octets: capture.tap("initiator" if put else "responder", octets))


def read_back(path, dissector):
    """What tshark tells: the fields of LINES for each association and side, and identifiers of messages."""
    words = ["tshark", "-r", path, "-X", f"lua_script:{dissector}", "-T", "fields", "-E", "occurrence=a"]
    for field in ("tcp.srcport", "tcp.dstport") + LINES + ("p1.local_identifier",):
        words += ["-e", field]
    told = subprocess.run(words, capture_output=True, text=True)
    found, messages = defaultdict(lambda: [[], [], []]), []
    for line in told.stdout.splitlines():
        source, target, *rows = line.split("\t")
        side = "responder" if source == str(PORTS["responder"]) else "initiator"
        session = int(target if side == "responder" else source) - PORTS["initiator"]
        for row, values in zip(found[session, side], rows):
            row += [it for it in values.split(",") if it]
        messages += [it for it in rows[3].split(",") if it]
    return found, messages


def main():
    parser = argparse.ArgumentParser(description="Compares what a dissector shows with what was put.")
    parser.add_argument("made", metavar="FOLDER")
    parser.add_argument("dissector", metavar="DISSECTOR")
    foreign.words(parser)
    arguments = parser.parse_args()
    path = os.path.join(arguments.made, "capture.pcap")
    capture = Capture(path)
    if arguments.call:
        foreign_associations(capture, arguments)
    else:
        associations(capture)
    capture.flush()
    found, messages = read_back(path, arguments.dissector)
    wrong = 0
    for key, those in capture.put.items():
        if found[key] != numbers_of(those):
            print(f"association {key[0]}, {key[1]}: put {numbers_of(those)}, and tshark tells {found[key]}")
            wrong = 1
    if len(messages) != capture.ends:
        print(f"{capture.ends} Ends were put, and tshark tells the messages {messages}")
        wrong = 1
    count = sum(len(those) for those in capture.put.values())
    print(f"{capture.session} associations with {count} units and {len(messages)} messages compared with tshark")
    return wrong


if __name__ == "__main__":
    sys.exit(main())
