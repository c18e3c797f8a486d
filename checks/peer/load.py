#!/usr/bin/env python3
"""A hub of 16 stations under load, and kills of processes: load.py MTA MTA_AUDIT FOLDER [SECONDS].

Eight agents call the hub, each at a station of its own, and the hub calls eight others. Each has messages for agents on
the other side, which go by the hub over two-way lanes. While they go, processes are stopped by SIGKILL and started
again, the hub more often than the others, and copies of the hub's spool are looked at. In the end each message is
delivered in exactly one mailbox, once there, and sent everywhere else, and an audit of the hub's spool with each other
one says that all that was sent was completed, once.
"""
import functools
import os
import random
import re
import subprocess
import sys
import time

import apdu
from agent import Agent, free_port, message
from pairs import Wrong
from together import all_at_once

SIDE = 8  # agents of a side
EACH = 6  # messages of an agent
SIZES = (2, 900, 3_000, 6_000)
QUIET = 75  # seconds behind the last kill until all is through


def domain(side, number):
    return f"C=GB;A={side}{number}"


def name(side, number):
    return f"{side}-{number}"


def leaf_tables(side, number):
    return (f"domain {domain(side, number)}\nname {name(side, number)}\npeer HUB to-hub-{number} from-hub twa 1 3\n"
            f"mailbox all {domain(side, number)};S=ALL\nroute C=GB peer HUB\n")


def hub_tables():
    lines = ["domain C=GB;A=HUB", "name HUB"]
    leaves = [(side, number) for side in ("WEST", "EAST") for number in range(SIDE)]
    lines += [f"peer {name(*leaf)} from-hub to-hub-{leaf[1]} twa 1 3" for leaf in leaves]
    lines += [f"route {domain(*leaf)} peer {name(*leaf)}" for leaf in leaves]
    return "\n".join(lines) + "\n"


class World:
    def __init__(self, mta, folder):
        self.hub = Agent(mta, f"{folder}/hub", hub_tables())
        self.leaves, self.words = {}, {}
        stations = []
        for number in range(SIDE):
            port = free_port()
            stations.append(f"in:{port}")
            self.words["WEST", number] = f"out:HUB:127.0.0.1:{port}"
            port = free_port()
            stations.append(f"out:{name('EAST', number)}:127.0.0.1:{port}")
            self.words["EAST", number] = f"in:{port}"
        self.stations = stations
        for leaf in self.words:
            self.leaves[leaf] = Agent(mta, f"{folder}/{name(*leaf)}", leaf_tables(*leaf))
        self.there = {}  # of each message its name and the mailbox where it belongs

    def load(self, leaf):
        side, number = leaf
        other = "EAST" if side == "WEST" else "WEST"
        for n in range(EACH):
            to = other, (number + n) % SIDE
            identifier = f"{side}-{number}-{n}"
            content = apdu.content_of(SIZES[(number + n) % len(SIZES)])
            self.leaves[leaf].submit(message(f"{domain(*leaf)};S=ALL", f"{domain(*to)};S=ALL", identifier, content))
            self.there[identifier] = to

    def start(self, which):
        if which == "hub":
            self.hub.serve("1000000", *self.stations)
        else:
            self.leaves[which].serve("1000000", self.words[which])

    def kill(self, which):
        (self.hub if which == "hub" else self.leaves[which]).kill()

    def look(self, before):
        """Looks at a copy of the hub's spool while the hub serves; the items that it has, no fewer than before."""
        items = re.findall(r"^item (\d+) ", self.hub.look(), re.M)
        if items != [str(n) for n in range(1, len(items) + 1)] or len(items) < before:
            raise Wrong(f"a copy has the items {items} behind one with {before}")
        return len(items)

    def is_through(self):
        """Whether each message is delivered, as copies of the spools of those that serve tell."""
        if "pending" in self.hub.statuses(self.hub.look()):
            return False
        found = [it for leaf in self.leaves.values() for it in leaf.statuses(leaf.look())]
        return "pending" not in found and found.count("delivered") == len(self.there)

    def check(self):
        wrong, found = [], {}
        for leaf, agent in self.leaves.items():
            for identifier in agent.identifiers("all"):
                found.setdefault(identifier, []).append(leaf)
        for identifier, to in self.there.items():
            if found.pop(identifier, []) != [to]:
                wrong.append(f"{identifier} belongs to {name(*to)} and is not there once")
        wrong += [f"{identifier} was handed over by nobody" for identifier in found]
        for agent in (self.hub, *self.leaves.values()):
            told = agent.statuses()
            if set(told) - {"sent", "delivered"}:
                wrong.append(f"{agent.folder}: {sorted(set(told))}")
        if self.hub.statuses().count("sent") != len(self.there):
            wrong.append(f"the hub sent {self.hub.statuses().count('sent')} of {len(self.there)}")
        if wrong:
            raise Wrong("\n".join(wrong))

    def audit(self, program):
        """The hub's spool, audited with that of each leaf: each message was sent on two lanes."""
        sent, line = 0, re.compile(r"(?:first|second) lane \d+ (?:out|in) sent (\d+) completed \1 agree")
        for leaf in self.leaves.values():
            words = [program, f"{self.hub.folder}/mta.spool", f"{leaf.folder}/mta.spool"]
            ended = subprocess.run(words, capture_output=True, text=True, check=False)
            found = [line.fullmatch(it) for it in ended.stdout.splitlines()]
            if ended.returncode or None in found:
                raise Wrong(f"{' '.join(words)} ended with {ended.returncode}:\n{ended.stdout}")
            sent += sum(int(it[1]) for it in found)
        if sent != 2 * len(self.there):
            raise Wrong(f"the audits have {sent} activities of {len(self.there)} messages")
        return sent


def main():
    mta, audit, folder = sys.argv[1:4]
    seconds = float(sys.argv[4]) if len(sys.argv) > 4 else 25
    world = World(mta, folder)
    wrong = all_at_once((name(*leaf), functools.partial(world.load, leaf)) for leaf in world.leaves)
    if wrong:
        print(*wrong, sep="\n")
        return 1
    everybody = ["hub", *world.leaves]
    for it in everybody:
        world.start(it)
    kills, items, sent, end = 0, 0, 0, time.monotonic() + seconds
    try:
        while time.monotonic() < end:
            time.sleep(random.uniform(0.05, 1.0))
            items = world.look(items)
            which = random.choice(["hub"] * 6 + everybody)
            world.kill(which)
            world.start(which)
            kills += 1
        begun = time.monotonic()
        while not world.is_through() and time.monotonic() < begun + QUIET:
            time.sleep(0.5)
        for it in everybody:
            world.kill(it)
        world.check()
        sent = world.audit(audit)
    except Wrong as why:
        print(f"wrong: {why}")
        return 1
    finally:
        Agent.end()
    print(f"{2 * SIDE} stations, {kills} kills: each of {len(world.there)} messages is in one mailbox, once, and sent "
          "everywhere else", flush=True)
    print(f"{kills} copies of the hub's spool, made while it served: each opens, the last one with {items} items")
    print(f"audits of the hub's spool with each other one: {sent} activities were sent, and completed once")
    print(f"the hub's spool has {os.path.getsize(world.hub.folder + '/mta.spool')} octets", flush=True)
    return 0


if __name__ == "__main__":
    sys.exit(main())
