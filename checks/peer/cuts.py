#!/usr/bin/env python3
"""Two agents of the real program, and a connection that is cut at random octets: cuts.py MTA FOLDER [SECONDS].

Pairs with other checkpoint sizes, windows and modes, side by side. Each has messages for the other, by way of a relay
that cuts a session somewhere, in either direction, orderly or by a reset; between, one of the two is stopped by SIGKILL
and started again. In the end each message is in the other's mailbox once, and the reports that were asked for are there
too.
"""
import functools
import os
import random
import socket
import struct
import sys
import threading
import time

import apdu
from agent import Agent, connect, free_port, message
from pairs import Wrong
from relay import carry  # of contrib, where agent.py has Python look too
from together import all_at_once

EACH = 5  # messages of an agent
BEHIND = 12  # sessions without a cut
PAIRS = (("twa", 1, 1, 64, 8), ("twa", 4, 8, 1, 3), ("twa", 0, 3, 1, 3), ("monologue", 1, 3, 2, 2))
ALIKE = 12  # pairs of each of these, since they wait a second behind a session in which nothing was sent, and ever
#             longer behind those that were cut before the peer answered
TABLES = """domain C=GB;A={own}
name {own}
peer {peer} to-{peer} to-{own} {mode} {size} {window}
mailbox all C=GB;A={own};S=ALL
route C=GB;A={peer} peer {peer}
"""


def shut_or_reset(connection):
    if random.random() < 0.5:
        connection.setsockopt(socket.SOL_SOCKET, socket.SO_LINGER, struct.pack("ii", 1, 0))
    connection.shutdown(socket.SHUT_RDWR)


class Couple:
    def __init__(self, mta, folder, mode, size, window, other_size, other_window):
        os.mkdir(folder)
        self.mode, self.port = mode, free_port()
        self.listener = socket.create_server(("127.0.0.1", 0))
        self.listener.settimeout(120)
        how = {"mode": mode, "size": size, "window": window}
        self.calls = Agent(mta, f"{folder}/calls", TABLES.format(own="ONE", peer="TWO", **how))
        how |= {"size": other_size, "window": other_window}
        self.called = Agent(mta, f"{folder}/called", TABLES.format(own="TWO", peer="ONE", **how))
        self.sessions, self.kills = 0, 0

    def load(self):
        ways = [(self.calls, "ONE", "TWO")] + [(self.called, "TWO", "ONE")] * (self.mode == "twa")
        for agent, own, peer in ways:
            for n in range(EACH):
                content = apdu.content_of((3, 2_000, 9_000, 40_000, 2_500)[n])
                names = f"C=GB;A={own};S=ALL", f"C=GB;A={peer};S=ALL"
                agent.submit(message(*names, f"{own}-{n}", content, own == "ONE"))

    def start(self, agent):
        agent.serve("1000000", f"in:{self.port}" if agent is self.called else
                    f"out:TWO:127.0.0.1:{self.listener.getsockname()[1]}")

    def session(self, there=None, back=None):
        caller = self.listener.accept()[0]
        called = connect(self.port)
        other = threading.Thread(target=carry, args=(called, caller, back, shut_or_reset))
        other.start()
        carry(caller, called, there, shut_or_reset)
        other.join()
        caller.close()
        called.close()
        self.sessions += 1

    def cut(self):
        if random.random() < 0.5:
            self.session(there=random.randint(1, random.choice((300, 60_000))))
        else:
            self.session(back=random.randint(1, random.choice((80, 400, 20_000))))

    def run(self, seconds):
        self.load()
        self.start(self.called)
        self.start(self.calls)
        end = time.monotonic() + seconds
        while time.monotonic() < end:
            self.cut()
            if random.random() < 0.1:
                agent = random.choice((self.calls, self.called))
                agent.kill()
                self.start(agent)
                self.kills += 1
        for _ in range(BEHIND):
            self.session()
        self.calls.kill()
        self.called.kill()
        self.check()

    def check(self):
        there = [f"ONE-{n}" for n in range(EACH)]
        back = [f"TWO-{n}" for n in range(EACH)] if self.mode == "twa" else []
        found = sorted(self.called.identifiers("all")), sorted(self.calls.identifiers("all"))
        if found != (there, back):
            raise Wrong(f"the mailboxes have {found}")
        reports = sorted(self.calls.subjects("all"))
        if reports != (there if self.mode == "twa" else []):
            raise Wrong(f"the reports are on {reports}")
        if set(self.calls.statuses()) - {"sent", "delivered"}:
            raise Wrong(f"the queue has {self.calls.run('spool')}")


def main():
    mta, folder = sys.argv[1:3]
    seconds = float(sys.argv[3]) if len(sys.argv) > 3 else 30
    done = []

    def ran(number):
        how = PAIRS[number % len(PAIRS)]
        couple = Couple(mta, f"{folder}/{number}", *how)
        couple.run(seconds)
        done.append((how, couple))

    wrong = all_at_once((f"{PAIRS[number % len(PAIRS)]}", functools.partial(ran, number))
                        for number in range(ALIKE * len(PAIRS)))
    Agent.end()
    for how in PAIRS:
        those = [couple for its, couple in done if its == how]
        print(f"{how[0]}, checkpoint sizes {how[1]} and {how[3]}: {sum(it.sessions for it in those)} sessions with "
              f"{sum(it.kills for it in those)} kills, each message once", flush=True)
    print(*wrong, sep="\n" if wrong else "", end="\n" if wrong else "")
    return 1 if wrong else 0


if __name__ == "__main__":
    sys.exit(main())
