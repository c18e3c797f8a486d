#!/usr/bin/env python3
"""`mta` over a file whose calls fail, that is full, read-only or cut: disks.py MTA LIBRARY FOLDER [MOST].

LIBRARY is checks/disks.c, to be preloaded. MOST is at how many places each fault is tried, spread over all there are.
"""
import itertools
import os
import re
import resource
import shutil
import signal
import socket
import subprocess
import sys
import time

import apdu
from agent import PATIENCE, Agent, free_port, message
from initiator import Initiator
from pairs import Wrong
from real import OURS, TABLES, THEIRS, Silver, values

NO_SPOOL, FAULT = 3, 4  # statuses: the file is no spool, and the disk failed
TAIL = 100_000  # octets behind the journal
SIZE = 2_500  # octets of a content that comes in pieces
MORE = 5  # sessions until one closes
KEPT = "what was acknowledged is there"
READ_ONLY = 'mount --bind "$0" "$0" && mount -o remount,ro,bind "$0" && cd "$0" && exec "$@"'


def spread(most, count):
    """At most so many of the numbers 1 to count, the first and the last among them."""
    step = max(1, (count - 1) / max(1, most - 1))
    return sorted({min(count, 1 + round(it * step)) for it in range(min(most, count))})


class Room:
    """How a process is run that may make no file longer than so many octets; its write fails then, with no signal."""

    def __init__(self, size):
        self.size = size

    def limit(self):
        resource.setrlimit(resource.RLIMIT_FSIZE, (self.size, self.size))

    def __enter__(self):
        self.was = signal.signal(signal.SIGXFSZ, signal.SIG_IGN)
        return {"preexec_fn": self.limit, "restore_signals": False}

    def __exit__(self, *_):
        signal.signal(signal.SIGXFSZ, self.was)


class Disks:
    def __init__(self, mta, library, folder, most):
        self.mta, self.library, self.folder, self.most = mta, library, folder, most
        self.numbers, self.runs = itertools.count(), 0
        base = self.new()
        for number in range(2):
            base.submit(self.given(number))
        self.base = base.folder

    def new(self):
        """An agent in a new folder."""
        return Agent(self.mta, f"{self.folder}/{next(self.numbers)}", TABLES.format(mode="twa"))

    def copy(self):
        """An agent in a copy of a folder in which two messages were taken."""
        agent = self.new()
        shutil.copy(f"{self.base}/mta.spool", agent.folder)
        return agent

    @staticmethod
    def given(number):
        return message(OURS, THEIRS, f"D{number:05d}", apdu.content_of(SIZE))

    def failing(self, agent, call, how):
        """How a process is run whose call of this number fails so."""
        return {"env": {**os.environ, "LD_PRELOAD": self.library, "FAULT_CALL": str(call), "FAULT_HOW": how,
                        "FAULT_TOLD": f"{agent.folder}/told"}}

    @staticmethod
    def calls(agent):
        """How many calls of the file the last process made."""
        with open(f"{agent.folder}/told") as told:
            return int(told.read())

    def submits(self, agent, **how):
        """One more message is submitted: the status, and the number that was printed, or None."""
        self.runs += 1
        did = subprocess.run([self.mta, "submit"], cwd=agent.folder, input=self.given(2), capture_output=True,
                             check=False, **how)
        said = did.stdout.decode()
        if did.returncode < 0:
            raise Wrong(f"signal {-did.returncode} ended it: {said}{did.stderr.decode()[-500:]}")
        if did.returncode == FAULT and not said.endswith("disk fault\n"):
            raise Wrong(f"status {FAULT} without its line: {said}")
        printed = re.match(r"accepted (\d+)\n", said)
        return did.returncode, int(printed[1]) if printed else None

    @staticmethod
    def keeps(agent, before, acknowledged):
        """The items that were there, and what was acknowledged, are there, and at most one more."""
        found = [int(it) for it in re.findall(r"^item (\d+) ", agent.run("spool"), re.M)]
        least = before if acknowledged is None else acknowledged
        if found != list(range(1, len(found) + 1)) or not least <= len(found) <= before + 1:
            raise Wrong(f"the items {found}: {before} were there, and {acknowledged} was acknowledged")

    def each_call(self, how):
        """A call of the file fails so, of a submit that makes the file and of one that goes on with it."""
        for make, before in ((self.new, 0), (self.copy, 2)):
            agent = make()
            if self.submits(agent, **self.failing(agent, 0, how)) != (0, before + 1):
                raise Wrong("nothing fails, and it is not accepted")
            for call in spread(self.most, self.calls(agent)):
                agent = make()
                status, printed = self.submits(agent, **self.failing(agent, call, how))
                if status != FAULT:
                    raise Wrong(f"call {call} {how}: status {status}")
                self.keeps(agent, before, printed)
                if self.submits(agent)[0] != 0:
                    raise Wrong(f"behind call {call} {how} it does not go on")

    def full(self):
        """The file may not grow past a size: sizes from that before a step to that behind it."""
        agent = self.copy()
        before = os.path.getsize(f"{agent.folder}/mta.spool")
        self.submits(agent)
        grown = os.path.getsize(f"{agent.folder}/mta.spool") - before
        for more in spread(self.most, grown):
            agent, size = self.copy(), before + more - 1
            with Room(size) as how:
                status, printed = self.submits(agent, **how)
            if status != FAULT or os.path.getsize(f"{agent.folder}/mta.spool") > size:
                raise Wrong(f"with room for {size} octets: status {status}")
            self.keeps(agent, 2, printed)
            if self.submits(agent)[0] != 0:
                raise Wrong("with room again it does not go on")

    def is_read_only(self):
        """The folder is read-only, with a spool in it and without: whether that could be tried."""
        for make in (self.new, self.copy):
            agent = make()
            under = ["unshare", "--mount", "sh", "-c", READ_ONLY, agent.folder]
            if shutil.which("unshare") is None or subprocess.run([*under, "true"], capture_output=True).returncode:
                return False
            before = sorted(os.listdir(agent.folder))
            for word in ("submit", "spool"):
                self.runs += 1
                did = subprocess.run([*under, self.mta, word], input=self.given(2), capture_output=True, check=False)
                if (did.returncode, did.stdout) != (FAULT, b"disk fault\n"):
                    raise Wrong(f"{word} where all is read-only: {did}")
            if sorted(os.listdir(agent.folder)) != before:
                raise Wrong("something was made where all is read-only")
        return True

    def with_tail(self):
        """As `copy`, with octets behind the journal that say nothing."""
        agent = self.copy()
        with open(f"{agent.folder}/mta.spool", "ab") as file:
            file.write(bytes(range(1, 251)) * (TAIL // 250))
        return agent

    def cut(self):
        """The file gets shorter at a call: what is cut off says nothing, or it holds steps."""
        agent = self.copy()
        was = os.path.getsize(f"{agent.folder}/mta.spool")
        self.submits(agent)
        size = os.path.getsize(f"{agent.folder}/mta.spool")
        for make, to, keeps in ((self.with_tail, size, True), (self.copy, was // 2, False)):
            agent = make()
            self.submits(agent, **self.failing(agent, 0, "fails"))
            for call in spread(self.most, self.calls(agent)):
                agent = make()
                status, printed = self.submits(agent, **self.failing(agent, call, str(to)))
                if status not in (0, NO_SPOOL, FAULT):
                    raise Wrong(f"cut to {to} octets at call {call}: status {status}")
                if keeps:
                    self.keeps(agent, 2, printed)

    def served(self, agent, silver, **how):
        """One session of the peer with an agent that serves: the status of the agent, and how the session ended."""
        self.runs += 1
        port, end = free_port(), None
        serving = subprocess.Popen([self.mta, "serve", "1", f"in:{port}"], cwd=agent.folder, stdin=subprocess.DEVNULL,
                                   stdout=subprocess.DEVNULL, **how)
        while end is None and serving.poll() is None:
            try:
                end, _ = silver.session(Initiator, socket.create_connection(("127.0.0.1", port)), values("twa"))
            except ConnectionRefusedError:
                time.sleep(0.01)
        return serving.wait(PATIENCE), end

    def session(self, how):
        """A peer brings a message in pieces, while a call of the file fails so, and goes on with an agent whose file is
        well: the message is there once."""
        agent, silver = self.copy(), Silver()
        silver.queue(SIZE)
        if self.served(agent, silver, **self.failing(agent, 0, how)) != (0, "closed"):
            raise silver.wrong("nothing fails, and the session is not closed")
        for call in spread(self.most, self.calls(agent)):
            agent, silver = self.copy(), Silver()
            silver.queue(SIZE)
            status, _ = self.served(agent, silver, **self.failing(agent, call, how))
            if status != FAULT:
                raise silver.wrong(f"call {call} {how}: status {status}")
            self.keeps(agent, 2, 3 if silver.are_sent() else None)
            ends = (self.served(agent, silver) for _ in range(MORE))
            if (0, "closed") not in ends or not silver.are_sent():
                raise silver.wrong(f"behind call {call} {how} the message is not sent")
            found = agent.identifiers("watt")
            if sorted(found) != ["D00000", "D00001", "S00001"]:
                raise silver.wrong(f"behind call {call} {how} the mailbox has {found}")


def tell(line):
    print(line, flush=True)


def main():
    mta, library, folder, *more = sys.argv[1:]
    start, most = time.monotonic(), int(more[0]) if more else 12
    disks = Disks(mta, library, folder, most)
    for how, said in (("fails", "fails"), ("full", "finds no room"), ("half", "does half of what it is to do")):
        disks.each_call(how)
        tell(f"submit, where a call of the file {said}: status {FAULT}; {KEPT}, and it goes on")
    disks.full()
    tell(f"submit, where the file may not grow so far: status {FAULT}; {KEPT}, and it goes on")
    if disks.is_read_only():
        tell(f"submit and spool, where the folder is read-only: status {FAULT}, and nothing is changed")
    else:
        tell("left out: nothing can be made read-only here")
    disks.cut()
    tell(f"submit, where the file gets shorter: it ends with a status; {KEPT} where only octets behind the journal "
         "went")
    for how, said in (("fails", "fails"), ("half", "does half of what it is to do")):
        disks.session(how)
        tell(f"serve, where a call of the file {said} in a session: status {FAULT}; {KEPT}, and in the end the message "
             "is there once")
    tell(f"figures: {disks.runs} runs, at most {most} places of each fault, {time.monotonic() - start:.0f} s")


if __name__ == "__main__":
    try:
        main()
    except Wrong as why:
        sys.exit(f"{why}")
