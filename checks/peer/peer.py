#!/usr/bin/env python3
"""A plain peer of an association, as docs/PROTOCOL.md has it. `peer.py --help` tells its words.

It keeps what it has sent and received in a folder, so it may be stopped at any moment and started again. What it
prints is the same for the same run: no moment, no port and no number of a process stands there.
"""
import argparse
import hashlib
import os
import socket
import sys

import apdu
import hostile
from initiator import Initiator
from link import Break, Link
from record import Folder, Record
from responder import Responder
from session import Values
from units import MONOLOGUE, TWO_WAY


def say(words):
    print(words, flush=True)


def grammar():
    parser = argparse.ArgumentParser(prog="peer.py", description="A peer of an association in plain Python.")
    commands = parser.add_subparsers(dest="command", required=True)
    call = commands.add_parser("call", help="bind as the initiator")
    call.add_argument("at", metavar="HOST:PORT")
    listen = commands.add_parser("listen", help="bind as the responder")
    listen.add_argument("at", metavar="HOST:PORT", help="port 0 takes any that is free")
    listen.add_argument("--port-file", help="where the port is written once it is had")
    for one in (call, listen):
        associations(one)
    queue = commands.add_parser("queue", help="put a message into the folder, to be sent")
    queue.add_argument("folder")
    queue.add_argument("--size", type=int, default=2, help="octets of its content")
    queue.add_argument("--number", type=int, default=1, help="the number in its identifier")
    queue.add_argument("--from", dest="origin", default="C=GB;A=SILVER;S=BELL")
    queue.add_argument("--to", default="C=GB;A=GOLD;S=WATT")
    queue.add_argument("--file", help="octets to send in place of a message made here")
    show = commands.add_parser("show", help="tell what the folder holds")
    show.add_argument("folder")
    got = commands.add_parser("received", help="put the octets of a message that came to standard output")
    got.add_argument("folder")
    got.add_argument("number", type=int)
    return parser


def associations(parser):
    parser.add_argument("folder")
    parser.add_argument("--name", default="silver", help="the own name")
    parser.add_argument("--peer", default="gold", help="the peer's name")
    parser.add_argument("--password", default="ours", help="the password sent")
    parser.add_argument("--expected", default="theirs", help="the password expected of the peer")
    parser.add_argument("--mode", choices=("monologue", "twa"), default="monologue")
    parser.add_argument("--checkpoint", type=int, default=1)
    parser.add_argument("--window", type=int, default=3)
    parser.add_argument("--moment", default="500101000000Z",
                        help="the moment in references; another one for each new folder that meets the same peer")
    parser.add_argument("--units", type=int, default=1_000_000, help="the unit of a session that is one too many")
    parser.add_argument("--sessions", type=int, default=1, help="how many, one after another")
    parser.add_argument("--until-closed", action="store_true", help="stop at the first session that ends closed")
    parser.add_argument("--break-after", default="", metavar="N,N,..",
                        help="break session i behind unit N, put or got; 0 breaks none; each: session i behind unit i")
    parser.add_argument("--break-before", default="", metavar="N,N,..", help="the same, in place of unit N")
    parser.add_argument("--how", choices=("orderly", "reset", "kill"), default="orderly",
                        help="a break: what was put still comes; a reset; this process is killed")
    parser.add_argument("--give-up", type=int, default=0, metavar="N", help="give up the activity under way at unit N")
    parser.add_argument("--hostile", metavar="KIND",
                        help="one wrong unit; 'kinds' tells which there are, 'all' tries all")
    parser.add_argument("--stations", type=int, default=1, help="how many links the peer takes at once")


def breaks_of(arguments, session):
    for place in ("after", "before"):
        told = getattr(arguments, "break_" + place)
        if told == "each":
            return Break(session + 1, place, arguments.how)
        numbers = [int(it) for it in told.split(",")] if told else []
        if session < len(numbers) and numbers[session]:
            return Break(numbers[session], place, arguments.how)
    return None


def where(text):
    host, _, port = text.rpartition(":")
    return host.strip("[]"), int(port)


def associate(arguments):
    it = arguments
    if it.hostile == "kinds":
        for kind in hostile.kinds(it.command):
            say(kind)
        return 0
    words = [text.encode() for text in (it.name, it.peer, it.password, it.expected)]
    mode = TWO_WAY if it.mode == "twa" else MONOLOGUE
    values = Values(*words, mode, it.checkpoint, it.window, it.units, it.moment, it.give_up)
    connections = Calls(it) if it.command == "call" else Listens(it)
    if it.hostile:
        return hostile.run(it.command, it.hostile, connections, values, say, it.stations)
    role = Initiator if it.command == "call" else Responder
    end = "none"
    for session in range(it.sessions):
        link = Link(connections.next(), say, breaks_of(it, session))
        end = role(link, Record(Folder(it.folder)), values).run()
        if end == "closed" and it.until_closed:
            break
    return 0 if end == "closed" else 3


class Calls:
    def __init__(self, arguments):
        self.at = where(arguments.at)

    def next(self):
        return socket.create_connection(self.at)


class Listens:
    def __init__(self, arguments):
        self.socket = socket.create_server(where(arguments.at))
        if arguments.port_file:
            with open(arguments.port_file + ".new", "w") as file:
                file.write(f"{self.socket.getsockname()[1]}\n")
            os.replace(arguments.port_file + ".new", arguments.port_file)

    def next(self):
        return self.socket.accept()[0]


def queue(arguments):
    if arguments.file:
        with open(arguments.file, "rb") as file:
            octets = file.read()
    else:
        local = b"M%04d" % arguments.number
        octets = apdu.message(arguments.origin, arguments.to, local, apdu.content_of(arguments.size))
    if not 1 <= len(octets) <= apdu.LONGEST:
        raise SystemExit("an activity has 1 to 2,097,152 octets")
    Record(Folder(arguments.folder)).step("queue", octets)
    say(f"queued {len(octets)} octets")
    return 0


def show(arguments):
    state = Record(Folder(arguments.folder)).state
    for number, (octets, status) in enumerate(state.messages):
        say(f"message {number} octets {len(octets)} {status}")
    for number, octets in enumerate(state.received):
        say(f"received {number} octets {len(octets)} {hashlib.sha256(octets).hexdigest()}")
    for lane in state.lanes:
        if lane.open:
            say(lane.told())
    return 0


def received(arguments):
    sys.stdout.buffer.write(Record(Folder(arguments.folder)).state.received[arguments.number])
    return 0


def main(given=None):
    arguments = grammar().parse_args(given)
    does = {"call": associate, "listen": associate, "queue": queue, "show": show, "received": received}
    try:
        return does[arguments.command](arguments)
    except OSError as why:
        say(f"failed: {why.strerror}")
        return 4


if __name__ == "__main__":
    sys.exit(main())
