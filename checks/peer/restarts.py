#!/usr/bin/env python3
"""Messages between two agents over restarts, breaks and compactions: restarts.py MTA FOLDER N [SEED].

The first third of N messages go from gold to silver, and the others from silver to gold. Each association is made by
two new processes, so each of them opens its spool anew and compacts it where it has grown past its use. About two in
three are broken at a random octet, or end as one of the processes is killed. In the end each message is in its mailbox
once and sent at the other end. Each time a spool has been compacted it has at most 300 octets for each message that
was sent, and what it holds still and as much.
"""
import os
import random
import re
import select
import socket
import struct
import sys
import threading
import time

import apdu
from agent import Agent, free_port, message
from pairs import Wrong

sys.path.insert(0, os.path.join(os.path.dirname(os.path.abspath(__file__)), "..", "speed"))
from tools import EPOCH, counted, number  # noqa: E402

TOTAL = 6_000_000  # octets of content at least, so that either spool grows past what is compacted
LEAST_MEAN = 1_500  # octets of content of a message
BATCHES = 60
PATIENCE = 60  # seconds for which one end waits for the other
SENT_ROOM = 300  # octets for each message that was sent
HELD_ROOM = 600  # octets for the envelope of one that is held, and what a snapshot has beside it
FIXED_ROOM = 2_000  # octets for the tables and a lane
MEBIBYTE = 1 << 20
MAILBOX = "all"

TABLES = """domain C=GB;A={own}
name {name}
peer {other} {out} {back} monologue 4 3
mailbox all C=GB;A={own};S=ALL
route C=GB;A={theirs} peer {other}
"""


class End:
    """One agent, and what is known of its spool."""

    def __init__(self, mta, folder, name, other, out, back):
        self.name, self.domain = name, f"C=GB;A={name.upper()}"
        words = {"own": name.upper(), "theirs": other.upper(), "name": name, "other": other, "out": out, "back": back}
        self.agent = Agent(mta, f"{folder}/{name}", TABLES.format(**words))
        self.spool = f"{self.agent.folder}/mta.spool"
        self.compactions, self.looked, self.highs, self.sizes = 0, 0, bytes(8), {}

    def size(self):
        """No octets where no process has made the file yet."""
        return os.path.getsize(self.spool) if os.path.exists(self.spool) else 0

    def was_compacted(self):
        """Whether the second area was last in another place than before: so it is behind a compaction."""
        with open(self.spool, "rb") as file:
            high = file.read(23)[15:].rjust(8, b"\x00")  # fewer where the file was not made to its end
        is_other = high != self.highs
        self.highs, self.compactions = high, self.compactions + is_other
        return is_other

    def append(self, octets):
        """Accepts more messages as `mta submit` records them, while no process has the spool."""
        with open(self.spool, "r+b") as file:
            at = end_of(file)
            moment = number(int(time.time()) + EPOCH, 8)
            bodies = [b"\x02" + moment + counted(it) for it in octets]
            file.seek(at)
            file.write(b"".join(b"\x01" + counted(it) for it in bodies) + b"\x00")

    def opened(self):
        """Opens the spool by `mta spool`, and looks at its size where that has compacted it."""
        self.was_compacted()
        queue = self.agent.run("spool")
        if self.was_compacted():
            self.looked += 1
            self.look(queue)

    def look(self, queue):
        """Wants no more than the octets that a compacted spool may have."""
        size, most = self.size(), FIXED_ROOM
        for identifier, status in re.findall(r"^item \d+ message [^/\n]*/(\S+) .*\nrecipient 1 ([a-z]+) ", queue, re.M):
            most += SENT_ROOM if status == "sent" else 2 * self.sizes[identifier] + HELD_ROOM
        if size > most:
            raise Wrong(f"{self.spool} has {size} octets behind a compaction, which should be {most} at most")


def end_of(file):
    """The place of the closed gate at the end of the records of the first area."""
    at = 23
    while True:
        file.seek(at)
        gate, size = struct.unpack(">BI", file.read(5).ljust(5, b"\x00"))
        if gate != 1:
            return at
        at += 5 + size


class Relay:
    """One connection that is carried to a port, and dropped at both ends behind so many octets where that is said."""

    def __init__(self, port, limit):
        self.listener = socket.create_server(("127.0.0.1", 0))
        self.listener.settimeout(PATIENCE)
        self.port, self.to, self.limit = self.listener.getsockname()[1], port, limit
        self.is_over = False
        self.running = threading.Thread(target=self.carry)
        self.running.start()

    def carry(self):
        try:
            with self.listener, self.listener.accept()[0] as caller:
                with self.reached() as called:
                    self.between({caller: called, called: caller})
        except OSError:
            pass  # nobody called, or nobody listened: a process was killed

    def reached(self):
        """A connection to the port, where somebody listens there or is about to."""
        while not self.is_over:
            try:
                return socket.create_connection(("127.0.0.1", self.to))
            except ConnectionRefusedError:
                time.sleep(0.01)
        raise ConnectionRefusedError

    def end(self):
        """Ends the wait for one that never came."""
        self.is_over = True
        try:
            self.listener.shutdown(socket.SHUT_RDWR)
        except OSError:
            pass  # it came
        self.running.join()

    def between(self, other):
        left, reading = self.limit, list(other)
        while reading:
            for it in select.select(reading, [], [], PATIENCE)[0]:
                octets = it.recv(65536)
                if left is not None and len(octets) >= left:
                    other[it].sendall(octets[:left])
                    return
                left = None if left is None else left - len(octets)
                if octets:
                    other[it].sendall(octets)
                else:
                    other[it].shutdown(socket.SHUT_WR)
                    reading.remove(it)


def ended(serving, patience=PATIENCE):
    """The lines of a serving process, which is killed where it does not end; nothing where it was killed."""
    end = time.monotonic() + patience
    while serving.poll() is None and time.monotonic() < end:
        time.sleep(0.01)
    if serving.poll() is None:
        serving.kill()
    told = serving.communicate()[0]
    if serving.returncode not in (0, -9):
        raise Wrong(f"serve ended with {serving.returncode}: {told}")
    return told if serving.returncode == 0 else ""


def meet(sender, receiver, limit=None, kill=None):
    """One association, which the sender calls for; whether it was closed. `kill` is one end, and the seconds until it
    is killed."""
    port = free_port()
    receiver.agent.serve("1", f"in:{port}")
    relay = Relay(port, limit)
    sender.agent.serve("1", f"out:{receiver.name}:127.0.0.1:{relay.port}")
    if kill is not None:
        time.sleep(kill[1])
        kill[0].agent.serving.kill()
    calls = ended(sender.agent.serving)
    called = ended(receiver.agent.serving, PATIENCE if kill is None else 2)
    relay.end()
    return "closed 1" in calls and "closed 1" in called


class Run:
    def __init__(self, mta, folder, count, seed):
        self.chance, self.count = random.Random(seed), count
        self.gold = End(mta, folder, "gold", "silver", "theirs", "ours")
        self.silver = End(mta, folder, "silver", "gold", "ours", "theirs")
        self.mean = max(LEAST_MEAN, TOTAL // count)
        self.breaks = self.kills = self.meetings = 0

    def loads(self, sender, receiver, numbers):
        """Hands messages of random sizes over: the first by `mta submit`."""
        octets = []
        for it in numbers:
            identifier = f"{sender.name[0].upper()}{it:06d}"
            size = self.chance.randint(0, 2 * self.mean)
            sender.sizes[identifier] = receiver.sizes[identifier] = size
            content = apdu.content_of(size)
            octets.append(message(f"{sender.domain};S=ALL", f"{receiver.domain};S=ALL", identifier, content))
        sender.agent.submit(octets[0])
        sender.append(octets[1:])

    def meets(self, sender, receiver, octets):
        """One association with a break, a kill or neither."""
        self.meetings += 1
        how = self.chance.choice(["break", "kill", "whole"])
        if how == "break":
            self.breaks += 1
            return meet(sender, receiver, limit=self.chance.randint(1, octets))
        if how == "kill":
            self.kills += 1
            return meet(sender, receiver, kill=(self.chance.choice([sender, receiver]), self.chance.uniform(0, 0.5)))
        return meet(sender, receiver)

    def goes(self, sender, receiver, numbers):
        """Sends these messages, batch after batch, and then what is left."""
        size = max(1, self.count // BATCHES)
        for first in range(0, len(numbers), size):
            batch = numbers[first:first + size]
            self.loads(sender, receiver, batch)
            self.meets(sender, receiver, len(batch) * (self.mean + 300))
            for it in (sender, receiver):
                if it.size() >= MEBIBYTE:
                    it.opened()
        while not meet(sender, receiver):
            self.meetings += 1
        for it in (sender, receiver):
            it.opened()

    def all(self):
        third = self.count // 3
        self.goes(self.gold, self.silver, range(1, third + 1))
        self.goes(self.silver, self.gold, range(third + 1, self.count + 1))

    def wants_each_once(self, sender, receiver, numbers):
        wanted = [f"{sender.name[0].upper()}{it:06d}" for it in numbers]
        found = receiver.agent.identifiers(MAILBOX)
        if sorted(found) != wanted:
            raise Wrong(f"{receiver.name} has {len(found)} messages, {len(set(found))} different ones, and should have "
                        f"{len(wanted)}")
        statuses = sender.agent.statuses()
        if statuses.count("sent") != len(wanted) or set(statuses) - {"sent", "delivered"}:
            raise Wrong(f"{sender.name}: {len(wanted)} should be sent, and {statuses.count('sent')} are")

    def check(self):
        third = self.count // 3
        self.wants_each_once(self.gold, self.silver, range(1, third + 1))
        self.wants_each_once(self.silver, self.gold, range(third + 1, self.count + 1))
        for it in (self.gold, self.silver):
            if it.compactions == 0:
                raise Wrong(f"{it.spool} was never compacted")


def main():
    mta, folder, count = os.path.abspath(sys.argv[1]), sys.argv[2], int(sys.argv[3])
    seed = int(sys.argv[4]) if len(sys.argv) > 4 else random.randrange(1 << 32)
    print(f"the seed is {seed}", flush=True)
    run = Run(mta, folder, count, seed)
    try:
        run.all()
        run.check()
    except Wrong as why:
        print(f"wrong: {why}")
        return 1
    finally:
        Agent.end()
    print(f"{count} messages over {run.meetings} associations, of which {run.breaks} were broken and {run.kills} had a "
          "process killed: each is in its mailbox once, and sent at the other end")
    for it in (run.gold, run.silver):
        print(f"{it.name} was compacted {it.compactions} times or more, {it.looked} of them with a look at its size, "
              f"and has {it.size()} octets")
    return 0


if __name__ == "__main__":
    sys.exit(main())
