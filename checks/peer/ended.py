#!/usr/bin/env python3
"""Stations that end while others of the process serve: ended.py MTA LIBRARY FOLDER.

LIBRARY is checks/disks.c, to be preloaded.
"""
import functools
import os
import re
import shutil
import socket
import subprocess
import sys
import time

import apdu
from agent import Agent, connect, free_port, message
from initiator import Initiator
from link import Link
from pairs import Wrong
from real import OURS, TABLES, THEIRS, Silver, values
from record import Record
from together import all_at_once
from units import PROTOCOL, Abort, write
from station_lines import stations

SOON = 30  # seconds within which a process ends, or a station says that it has
FAULT = 4  # the status of a disk that failed
ROOM = 1 << 20  # octets of a disk that gets full
SIZE = 60_000  # octets of a content that fills it
USED_UP = 40  # sessions that are taken by connections without a name
WATCH = os.path.join(os.path.dirname(os.path.abspath(__file__)), "..", "..", "contrib", "watch.sh")
GOLD = TABLES.format(mode="twa")


def until(what, why, seconds=SOON):
    """What it answers, once it answers something."""
    end = time.monotonic() + seconds
    while time.monotonic() < end:
        found = what()
        if found:
            return found
        time.sleep(0.05)
    raise Wrong(f"not within {seconds} seconds: {why}")


class Served:
    """An agent that serves at these ports, and a true peer of it."""

    def __init__(self, mta, folder, sessions, ports, others=(), env=None, under=()):
        self.agent, self.silver, self.ports = Agent(mta, folder, GOLD), Silver(), ports
        under = [*under, "env", *(f"{name}={value}" for name, value in (env or {}).items())]
        self.agent.serve(str(sessions), *(f"in:{it}" for it in ports), *others, under=under)

    def session(self, port, size=None):
        """A session of the true peer, in which it brings a message of this size, and how it ended."""
        if size is not None:
            self.silver.queue(size)
        end, _ = self.silver.session(Initiator, connect(port), values("twa"))
        return end

    def closes(self, port):
        end = self.session(port)
        if end != "closed":
            raise self.silver.wrong(f"a session at {port} ended {end}")

    def line(self, number):
        """The line of a station, of this process."""
        try:
            found = stations(self.agent)[number - 1]
        except (FileNotFoundError, IndexError):
            return None
        return found if int(found["process"]) == self.agent.serving.pid else None

    def ends(self, told):
        """The process ends soon with the status of a disk that failed and these lines."""
        began = time.monotonic()
        try:
            said, _ = self.agent.serving.communicate(timeout=SOON)
        except subprocess.TimeoutExpired:
            raise Wrong(f"it has not ended {SOON} seconds after a call of the disk failed") from None
        if self.agent.serving.returncode != FAULT or not re.fullmatch(told, said):
            raise Wrong(f"status {self.agent.serving.returncode}: {said}")
        return time.monotonic() - began

    def is_refused(self, number):
        """Whether the station has said that it had all its sessions, and refuses its callers."""
        port = self.ports[number - 1]
        line = until(lambda: (it := self.line(number)) and it["ended"] != "-" and it, f"station {number} says that it "
                     "has ended")
        if line["ended"] != "served" or line["since"] != "0" or not int(line["ended_at"]):
            raise Wrong(f"{line}")
        try:
            socket.create_connection(("127.0.0.1", port)).close()
        except ConnectionRefusedError:
            pass
        else:
            raise Wrong(f"station {number} has ended, and its port takes a caller")
        return line

    def is_told(self, number):
        """Whether mta-watch tells of the station that has ended."""
        did = subprocess.run(["sh", WATCH, self.agent.folder], capture_output=True, text=True)
        if did.returncode != 1 or f"station {number} in {self.ports[number - 1]} has ended" not in did.stdout:
            raise Wrong(f"mta-watch of a station that has ended: {did}")


def failing(folder, library):
    """How a process is run whose next sync fails once the file is made that is answered."""
    return {"LD_PRELOAD": library, "FAULT_SYNC": f"{folder}.fails"}, f"{folder}.fails"


def make(path):
    with open(path, "w"):
        pass


def goes_on(served):
    """The spool opens, and has what the true peer was told is there."""
    found = served.agent.identifiers("watt")
    sent = [f"S{n:05d}" for n, (_, status) in enumerate(Record(served.silver.store).state.messages, 1)
            if status == "sent"]
    if len(set(found)) != len(found) or not set(sent) <= set(found):
        raise served.silver.wrong(f"{sent} were acknowledged, and the mailbox has {found}")


def sync_fails(mta, library, folder):
    """A sync fails at one station: another waits for callers, and a third for a peer that refuses, up to a minute."""
    env, fails = failing(folder, library)
    ports = free_port(), free_port()
    served = Served(mta, folder, 1000, ports, [f"out:silver:127.0.0.1:{free_port()}"], env)
    served.closes(ports[0])
    time.sleep(4)  # the pause between two calls grows
    make(fails)
    end = served.session(ports[0], 2)
    if end == "closed" or os.path.exists(fails):
        raise Wrong(f"no sync failed: {end}")
    served.ends(r"station 1 sessions 2 closed 1\nstation 2 sessions 0 closed 0\nstation 3 sessions 0 closed 0\n"
                r"disk fault\n")
    goes_on(served)
    return f"a sync fails at one station: the process ends with status {FAULT}, though others wait for peers"


def sync_fails_beside(mta, library, folder):
    """The same while another station has a session whose peer gives nothing."""
    env, fails = failing(folder, library)
    ports = free_port(), free_port()
    served = Served(mta, folder, 1000, ports, env=env)
    other = Silver()
    link = Link(connect(ports[1]), other.lines.append)
    Initiator(link, Record(other.store), values("twa", moment="500101000001Z")).open()
    make(fails)
    served.session(ports[0], 2)
    served.ends(r"station 1 sessions 1 closed 0\nstation 2 sessions 1 closed 0\ndisk fault\n")
    goes_on(served)
    return "the same while another station has a session in which its peer is silent"


def fill(served):
    """Brings messages until there is no more room: the process ends."""
    for _ in range(2 * ROOM // SIZE):
        if served.session(served.ports[0], SIZE) != "closed":
            break
    else:
        raise Wrong("the disk does not get full")
    served.ends(r"station 1 sessions \d+ closed \d+\nstation 2 sessions 0 closed 0\ndisk fault\n")


def limited(mta, folder):
    """A file may have no more octets than so many."""
    served = Served(mta, folder, 1000, (free_port(), free_port()), under=["prlimit", f"--fsize={ROOM}"])
    fill(served)
    goes_on(served)
    return "a limit of a file's length: the same, and no signal ends it"


def full(mta, folder):
    """The disk gets full while a peer brings messages."""
    place = f"{folder}.disk"
    os.mkdir(place)
    mount = ["mount", "-t", "tmpfs", "-o", f"size={ROOM}", "tmpfs", place]
    if shutil.which("mount") is None or subprocess.run(mount, capture_output=True).returncode:
        return "left out: no disk can be mounted here"
    ports = free_port(), free_port()
    served = Served(mta, f"{place}/gold", 1000, ports)
    fill(served)
    roomy = Agent(mta, folder, GOLD)
    shutil.copy(f"{place}/gold/mta.spool", folder)
    served.agent = roomy
    goes_on(served)
    subprocess.run(["umount", place], check=False)
    return f"a disk gets full: the process ends with status {FAULT}, and what was acknowledged is there"


def has_served(mta, folder):
    """A station has the last of its sessions; the other one serves."""
    ports = free_port(), free_port()
    served = Served(mta, folder, 3, ports)
    for _ in range(3):
        served.closes(ports[0])
    served.is_refused(1)
    served.is_told(1)
    served.closes(ports[1])
    served.is_refused(1)
    for _ in range(2):
        served.closes(ports[1])
    told = served.agent.told()
    if told != "station 1 sessions 3 closed 3\nstation 2 sessions 3 closed 3\n":
        raise Wrong(told)
    return "the last session of a station: its port refuses callers, mta.stations says so, and the other one serves"


def used_up(mta, folder):
    """Connections that bring a length of no unit, without a name, use up the sessions of a station."""
    ports = free_port(), free_port()
    served = Served(mta, folder, USED_UP, ports)
    for _ in range(USED_UP):
        with connect(ports[0]) as connection:
            connection.sendall(b"\xff\xff\xff\xff")
            answer = connection.recv(100)
        if answer != write(Abort(PROTOCOL)):
            raise Wrong(f"a length of no unit is answered {answer.hex()}")
    line = served.is_refused(1)
    if line["sessions"] != str(USED_UP):
        raise Wrong(f"{line}")
    served.is_told(1)
    served.closes(ports[1])
    served.agent.kill()
    return f"{USED_UP} connections that bring FFFFFFFF use up one station: the same, and mta-watch says so"


def main():
    mta, library, folder = sys.argv[1:]
    ways = {"sync": functools.partial(sync_fails, mta, library),
            "beside": functools.partial(sync_fails_beside, mta, library), "full": functools.partial(full, mta),
            "limited": functools.partial(limited, mta), "served": functools.partial(has_served, mta),
            "used-up": functools.partial(used_up, mta)}
    said = {}

    def plays(name):
        said[name] = ways[name](f"{folder}/{name}")

    wrong = all_at_once((name, functools.partial(plays, name)) for name in ways)
    Agent.end()
    print(*(said[name] for name in ways if name in said), *wrong, sep="\n")
    return 1 if wrong else 0


if __name__ == "__main__":
    sys.exit(main())
