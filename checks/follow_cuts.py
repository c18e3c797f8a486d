#!/usr/bin/env python3
"""A spool that is pushed to a standby over a connection that is cut at random: follow_cuts.py MTA_FOLLOW FOLDER [CUTS].

Both sides are the real program, each in a folder of its own, with a relay between them that carries a random number of
octets, either way, and then shuts or resets both connections; now and then one side is stopped by SIGKILL instead.
After each session the standby's records are the first ones of the spool's, no fewer than before, and no fewer than were
told kept. In the end a session without a cut leaves a standby that is equal to the spool, octet for octet.
"""
import os
import random
import select
import socket
import struct
import subprocess
import sys

AREAS = b"MTASPL01\x01\0\0\0\x0a\xff" + bytes(9)
TABLES = b"domain C=GB;A=GOLD\nname GOLD-%d\n"


def counted(octets):
    return struct.pack(">I", len(octets)) + octets


def spool(count):
    """The format, and then tables, again and again: each record is possible behind those before it."""
    bodies = [b"\x19" + struct.pack(">I", 2)]
    for number in range(1, count):
        text = TABLES % number + b"# " + b"x" * random.randrange(3000) + b"\n"
        bodies.append(b"\x01" + counted(text))
    return bodies


def octets_of(bodies):
    return AREAS + b"".join(b"\x01" + counted(body) for body in bodies) + b"\0"


def bodies_of(octets):
    """The bodies of the records of a journal of two areas, of which the first is current."""
    if len(octets) < 24:
        return []
    assert octets[:23] == AREAS, "the standby is no journal of two areas"
    bodies, at = [], 23
    while octets[at] == 1:
        size = struct.unpack(">I", octets[at + 1:at + 5])[0]
        bodies.append(octets[at + 5:at + 5 + size])
        at += 5 + size
        assert at < len(octets), "a record passes the end of the standby"
    return bodies


def free_port():
    with socket.create_server(("127.0.0.1", 0)) as listener:
        return listener.getsockname()[1]


def shut(connection, hard):
    if hard:
        connection.setsockopt(socket.SOL_SOCKET, socket.SO_LINGER, struct.pack("ii", 1, 0))
    connection.close()


def carry(one, other, most):
    """Carries octets both ways until so many have gone, and how many they were."""
    gone = 0
    while gone < most:
        ready, _, _ = select.select([one, other], [], [], 60)
        for source in ready:
            try:
                octets = source.recv(min(1 << random.randrange(13), most - gone))
                if not octets:
                    return gone
                (other if source is one else one).sendall(octets)
            except OSError:
                return gone
            gone += len(octets)
            if gone >= most:
                return gone
        assert ready, "nothing was sent for a minute"
    return gone


class Pair:
    def __init__(self, program, folder, bodies):
        self.program, self.spool, self.standby = program, f"{folder}/spool", f"{folder}/standby"
        self.bodies, self.held = bodies, 0
        for place in (self.spool, self.standby):
            os.mkdir(place)
        with open(f"{self.spool}/mta.spool", "wb") as file:
            file.write(octets_of(bodies))

    def run(self, place, *words):
        return subprocess.Popen([self.program, *words], cwd=place, stdout=subprocess.PIPE, text=True)

    def session(self, most):
        port = free_port()
        pull = self.run(self.standby, "pull", str(port))
        with socket.create_server(("127.0.0.1", 0)) as listener:
            push = self.run(self.spool, "push", "127.0.0.1", str(listener.getsockname()[1]))
            pushing, _ = listener.accept()
        while True:
            try:
                pulling = socket.create_connection(("127.0.0.1", port), timeout=60)
                break
            except ConnectionRefusedError:
                assert pull.poll() is None, "the standby has ended"
        carry(pushing, pulling, most)
        if random.random() < 0.1:
            random.choice((push, pull)).kill()
        hard = random.random() < 0.5
        shut(pushing, hard)
        shut(pulling, hard)
        # a connection that brought no whole unit is none: the standby waits for another
        if pull.poll() is None and most < 10:
            with socket.create_connection(("127.0.0.1", port)) as last:
                last.sendall(b"\xff\xff\xff\xff")
        return self.ended(push, pull)

    def ended(self, push, pull):
        pushed, pulled = push.communicate(timeout=120)[0], pull.communicate(timeout=120)[0]
        held = bodies_of(open(f"{self.standby}/mta.spool", "rb").read())
        assert held == self.bodies[:len(held)], "the standby holds what the spool does not"
        assert len(held) >= self.held, "the standby lost a record"
        if pulled:
            assert len(held) >= int(pulled.split()[1]), "fewer records are there than were kept"
        self.held = len(held)
        return push.returncode, pushed, pull.returncode, pulled


def main():
    program, folder = os.path.abspath(sys.argv[1]), sys.argv[2]
    cuts = int(sys.argv[3]) if len(sys.argv) > 3 else 200
    bodies = spool(60)
    whole = len(octets_of(bodies)) + 14 * len(bodies)
    pair, early = Pair(program, folder, bodies), 0
    for cut in range(cuts):
        if pair.held == len(bodies):  # the next standby begins anew
            os.remove(f"{pair.standby}/mta.spool")
            pair.held = 0
        push, pushed, pull, pulled = pair.session(random.randrange(1 + whole * (pair.held + 2) // len(bodies)))
        early += pull != 0
    push, pushed, pull, pulled = pair.session(1 << 40)
    assert (push, pushed) == (0, f"pushed {len(bodies)}\n"), (push, pushed)
    assert (pull, pulled) == (0, f"kept {len(bodies)}\n"), (pull, pulled)
    with open(f"{pair.spool}/mta.spool", "rb") as one, open(f"{pair.standby}/mta.spool", "rb") as other:
        assert one.read() == other.read(), "the standby differs from the spool"
    print(f"{cuts} sessions cut, of which {early} ended early: the standby equals the spool, and held nothing else")


if __name__ == "__main__":
    main()
