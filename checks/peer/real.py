#!/usr/bin/env python3
"""The real program against the peer: real.py MTA FOLDER.

The peer calls an agent that serves, and is called by one, monologue and two-way, with a break at every unit of an
association, and puts wrong units. Behind all of it each message is in the other end exactly once, and known to have
been sent.
"""
import functools
import itertools
import socket
import sys
import time

import apdu
import hostile
from agent import Agent, connect, free_port, message
from initiator import Initiator
from link import Break, Link
from pairs import Wrong
from record import Memory, Record
from responder import Responder
from session import Values
from together import all_at_once
from units import MONOLOGUE, TWO_WAY

MODES = {"monologue": MONOLOGUE, "twa": TWO_WAY}
OURS, THEIRS = "C=GB;A=SILVER;S=BELL", "C=GB;A=GOLD;S=WATT"
MOST = 64  # sessions until one closes
# wrong units that a million units stand before
LONG = ("units",)
TABLES = """domain C=GB;A=GOLD
name gold
peer silver theirs ours {mode} 1 3
mailbox watt C=GB;A=GOLD;S=WATT
route C=GB;A=GOLD here
route C=GB;A=SILVER peer silver
"""


def values(mode, checkpoint=1, window=3, moment="500101000000Z"):
    return Values(b"silver", b"gold", b"ours", b"theirs", MODES[mode], checkpoint, window, moment=moment)


class Silver:
    """The peer: its record, and sessions of it."""

    def __init__(self):
        self.store, self.count, self.asked, self.lines = Memory(), 0, 0, []

    def queue(self, size, report=False):
        self.count += 1
        self.asked += report
        octets = message(OURS, THEIRS, f"S{self.count:05d}", apdu.content_of(size), report)
        Record(self.store).step("queue", octets)

    def session(self, role, connection, how, breaks=None):
        link = Link(connection, self.lines.append, breaks)
        end = role(link, Record(self.store), how).run()
        return end, link.count

    def received(self):
        """What came, none of it twice."""
        found = Record(self.store).state.received
        if len(set(found)) != len(found):
            raise self.wrong("the peer got something twice")
        return found

    def are_sent(self):
        return all(status == "sent" for _, status in Record(self.store).state.messages)

    def names(self):
        return [f"S{n:05d}" for n in range(1, self.count + 1)]

    def wrong(self, why):
        told = "\n".join(f"  {it}" for it in self.lines[-60:])
        return Wrong(f"{why}\n{told}")


def check_mailbox(agent, silver):
    found = agent.identifiers("watt")
    if sorted(found) != silver.names():
        raise silver.wrong(f"the mailbox has {len(found)} messages of {silver.count}")


def calls(mta, folder):
    """The peer calls: a break at every unit of a session, in its place and behind it. The agent's reports come back."""
    agent, silver, port = Agent(mta, folder, TABLES.format(mode="twa")), Silver(), free_port()
    agent.serve("1000000", f"in:{port}")

    def transfer(how, size, breaks=None):
        silver.queue(size, how.mode == TWO_WAY)
        end, count = silver.session(Initiator, connect(port), how, breaks)
        for _ in range(MOST):
            if end == "closed":
                break
            end, _ = silver.session(Initiator, connect(port), how)
        if end != "closed" or not silver.are_sent():
            raise silver.wrong(f"message {silver.count} of {size}: the last session {end}")
        return count

    for mode in MODES:
        for size, checkpoint, window in ((2, 0, 1), (2_500, 1, 1), (2_500, 1, 3)):
            how = values(mode, checkpoint, window)
            count = transfer(how, size)
            for number in range(1, count + 1):
                for place in ("after", "before"):
                    transfer(how, size, Break(number, place))
    for _ in range(MOST):
        if len(silver.received()) >= silver.asked:
            break
        silver.session(Initiator, connect(port), values("twa"))
    agent.kill()
    check_mailbox(agent, silver)
    told = agent.statuses()
    if len(silver.received()) != silver.asked or told.count("sent") != silver.asked or "pending" in told:
        raise silver.wrong(f"{len(silver.received())} reports came of {silver.asked}: {sorted(set(told))}")
    print(f"the peer calls: {silver.count} messages there and {silver.asked} reports back, each once", flush=True)


def listens(mta, folder, mode):
    """The peer is called: session i breaks at unit i / 2, until one that is not broken any more closes."""
    agent, silver = Agent(mta, folder, TABLES.format(mode=mode)), Silver()
    sizes = (2, 2_500, 5_000, 0, 2_500)
    for number, size in enumerate(sizes):
        agent.submit(message(THEIRS, OURS, f"G{number:05d}", apdu.content_of(size)))
    both = mode == "twa"
    for size in sizes if both else ():
        silver.queue(size)
    listener = socket.create_server(("127.0.0.1", 0))
    listener.settimeout(60)
    agent.serve("1000000", f"out:silver:127.0.0.1:{listener.getsockname()[1]}")
    sessions, end = 0, None
    while end != "closed" or len(silver.received()) < len(sizes) or not silver.are_sent():
        sessions += 1
        breaks = Break(sessions // 2 + 1, ("after", "before")[sessions % 2])
        end, _ = silver.session(Responder, listener.accept()[0], values(mode, 1, 2), breaks)
        if sessions > 400:
            raise silver.wrong("the sessions do not end")
    # the agent is through with the last session once it calls again
    listener.accept()[0].close()
    agent.kill()
    listener.close()
    check_mailbox(agent, silver)
    if agent.statuses().count("sent") != len(sizes):
        raise silver.wrong(f"not sent: {agent.run('spool')}")
    print(f"the peer is called, {mode}: {len(silver.received())} messages came, {silver.count} went, each once, in "
          f"{sessions} sessions", flush=True)


class Calls:
    """Connections to these ports in turn, so that two may be there at once."""

    def __init__(self, *ports):
        self.ports = itertools.cycle(ports)

    def next(self):
        return connect(next(self.ports))


class Listens:
    def __init__(self):
        self.socket = socket.create_server(("127.0.0.1", 0))
        self.socket.settimeout(60)
        self.port = self.socket.getsockname()[1]

    def next(self):
        return self.socket.accept()[0]


def puts_wrong(mta, folder, command, mode):
    """One wrong unit of each kind, and how each is answered."""
    agent = Agent(mta, folder, TABLES.format(mode=mode))
    kinds = [it for it in hostile.kinds(command) if it not in LONG]
    for number in range(len(kinds) if command == "listen" else mode == "twa"):
        agent.submit(message(THEIRS, OURS, f"G{number:05d}", apdu.content_of(5_000)))
    if command == "call":
        ports = free_port(), free_port()
        agent.serve("1000000", *(f"in:{it}" for it in ports))
        connections = Calls(*ports)
    else:
        connections = Listens()
        agent.serve("1000000", f"out:silver:127.0.0.1:{connections.port}")
    lines = []
    wrong = hostile.run(command, ",".join(kinds), connections, values(mode), lines.append, stations=2)
    agent.kill()
    agent.run("spool")
    if wrong:
        at = max(n for n, it in enumerate(lines) if it.startswith("not so"))
        raise Wrong(f"{command}, {mode}, {folder}\n" + "\n".join(lines[max(0, at - 20):at + 1]))
    done = sum(it == "answered as it has to be" for it in lines)
    print(f"{done} wrong units, {'the peer calls' if command == 'call' else 'the peer is called'}, {mode}: each is "
          "answered as it has to be", flush=True)


def main():
    mta, folder = sys.argv[1:]
    start = time.monotonic()
    ways = [(calls,)] + [(listens, mode) for mode in MODES]
    ways += [(puts_wrong, command, mode) for command in ("call", "listen") for mode in MODES]
    wrong = all_at_once((f"{does.__name__} {more}", functools.partial(does, mta, f"{folder}/{number}", *more))
                        for number, (does, *more) in enumerate(ways))
    Agent.end()
    print(*wrong, sep="\n" if wrong else "", end="")
    print(f"after {time.monotonic() - start:.0f} seconds", flush=True)
    return 1 if wrong else 0


if __name__ == "__main__":
    sys.exit(main())
