#!/usr/bin/env python3
"""A spool that is removed, replaced or cut under an agent that serves: replaced.py MTA FOLDER."""
import functools
import os
import shutil
import socket
import sys
import time

from agent import Agent, free_port
from initiator import Initiator
from link import Link
from pairs import Wrong
from real import TABLES, Silver, values
from record import Record
from together import all_at_once
from units import Abort, Data, SyncAck, write

FAULT = 4  # the status of a disk that failed
SOON = 30  # seconds within which the process ends
SIZE = 5_000  # octets of a content that comes in pieces of 1,024
CUT = 100  # octets to which the spool is cut


def removed(spool):
    os.remove(spool)


def removed_and_made(spool):
    os.remove(spool)
    with open(spool, "wb"):
        pass


def renamed(spool):
    os.rename(spool, f"{spool}.old")


def renamed_over(spool):
    with open(f"{spool}.new", "wb"):
        pass
    os.rename(f"{spool}.new", spool)


def by_a_copy(spool):
    """Octet for octet the same, but another file."""
    shutil.copy(spool, f"{spool}.new")
    os.rename(f"{spool}.new", spool)


def cut(spool):
    os.truncate(spool, CUT)


WAYS = {"it is removed": removed, "it is removed, and an empty one is made": removed_and_made, "it is renamed": renamed,
        "an empty one is renamed over it": renamed_over, "a copy of it is renamed over it": by_a_copy,
        f"it is cut to {CUT} octets": cut}


class Watch:
    """The units of a link, and what is done once the peer has put its first piece."""

    def __init__(self, link, does=None):
        self.does, self.answers = does, []
        self.is_done = does is None
        link.tap = self.unit

    def unit(self, is_put, octets):
        if is_put and not self.is_done and octets[4:5] == write(Data(b""))[4:5]:
            self.does()
            self.is_done = True
        elif not is_put and self.is_done:
            self.answers.append(octets)

    def acknowledged(self):
        """The answers that are no Abort."""
        return [it.hex()[:40] for it in self.answers if it[4:5] != write(Abort(0))[4:5]]


def called(agent, port):
    """A connection to the agent; none where it has ended, as it may with the step that it makes after a session."""
    while agent.serving.poll() is None:
        try:
            return socket.create_connection(("127.0.0.1", port))
        except ConnectionRefusedError:
            time.sleep(0.01)
    return None


def session(silver, connection, does=None):
    """A session of the true peer: how it ended, and what was acknowledged behind what is done in it."""
    if connection is None:
        return "refused", []
    link = Link(connection, silver.lines.append)
    watch = Watch(link, does)
    end = Initiator(link, Record(silver.store), values("twa")).run()
    if not watch.is_done:
        raise silver.wrong(f"no piece was put: {end}")
    return end, watch.acknowledged()


def plays(mta, folder, does, is_within):
    """The spool is replaced between two sessions, or within one."""
    agent, silver, port = Agent(mta, folder, TABLES.format(mode="twa")), Silver(), free_port()
    agent.serve("1000", f"in:{port}", f"in:{free_port()}")
    silver.queue(SIZE)
    if session(silver, called(agent, port))[0] != "closed" or not silver.are_sent():
        raise silver.wrong("the first session is not closed")
    replace = functools.partial(does, f"{folder}/mta.spool")
    silver.queue(SIZE)
    if not is_within:
        replace()
    end, acknowledged = session(silver, called(agent, port), replace if is_within else None)
    if end == "closed" or acknowledged or silver.are_sent():
        raise silver.wrong(f"the session ended {end}, and these came: {acknowledged}")
    told, _ = agent.serving.communicate(timeout=SOON)
    if agent.serving.returncode != FAULT or not told.endswith("disk fault\n"):
        raise Wrong(f"status {agent.serving.returncode}: {told}")


def main():
    mta, folder = sys.argv[1:]
    jobs = [(f"{told}, {'within a session' if is_within else 'between two sessions'}", does, is_within)
            for told, does in WAYS.items() for is_within in (False, True)]
    wrong = all_at_once((told, functools.partial(plays, mta, f"{folder}/{number}", does, is_within))
                        for number, (told, does, is_within) in enumerate(jobs))
    Agent.end()
    if not wrong:
        for told in WAYS:
            print(f"the spool under an agent that serves, {told}: status {FAULT} at the next step, and nothing is "
                  "acknowledged after it")
    print(*wrong, sep="\n", end="\n" if wrong else "")
    return 1 if wrong else 0


if __name__ == "__main__":
    sys.exit(main())
