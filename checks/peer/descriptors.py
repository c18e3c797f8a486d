#!/usr/bin/env python3
"""Programs that are started with some of the descriptors 0, 1 and 2 closed: descriptors.py FOLDER MTA STORE AUDIT
FOLLOW REHEARSE.

A process gets the lowest free descriptor for a file that it opens, so one that is started without a standard output
could have the spool for it, and write its lines there.
"""
import itertools
import os
import re
import shutil
import socket
import subprocess
import sys
import time
from concurrent.futures import ThreadPoolExecutor

import apdu
from agent import PATIENCE, Agent, connect, free_port, message
from initiator import Initiator
from pairs import Wrong
from real import OURS, TABLES, THEIRS, Silver, values

AT_ONCE = 4  # runs side by side
WAIT = 120  # seconds within which a program ends
PAUSE = 0.02  # seconds between two looks at a port
FILES = ("mta.spool", "mta.marks", "other/mta.spool")
NO_INPUT, NO_SOURCE, NO_OUTPUT = 6, 8, 9  # statuses: nothing to read, tables that cannot be read, an output that fails
SETS = [it for count in range(4) for it in itertools.combinations(range(3), count)]
CLOSED = ("<&-", ">&-", "2>&-")
NO_WRITE = "1</dev/null"  # an output to which every write fails
MADE = {"mta.spool", "mta.marks", "mta.tables", "mta.stations", "given.ber", "other", "standby", "pushed"}
NO_DEVICES = 'mount --bind "$0" /dev && exec "$@"'
SILVER = """domain C=GB;A=SILVER
name silver
peer gold ours theirs twa 1 3
mailbox bell C=GB;A=SILVER;S=BELL
route C=GB;A=SILVER here
route C=GB;A=GOLD peer gold
"""


class Command:
    """Words of a program, whether it reads its input and prints something, its status without mta.tables, and what runs
    beside it."""

    def __init__(self, program, *words, reads=False, prints=True, tables=0, beside=None):
        self.program, self.words, self.reads, self.prints = program, words, reads, prints
        self.tables, self.beside = tables, beside

    def told(self):
        return " ".join((self.program, *self.words))

    def of_port(self, programs, port):
        """The program and its words, at this port."""
        return [programs[self.program], *(it.replace("PORT", str(port)) for it in self.words)]

    def status(self, closed, with_tables):
        """The manual's status: an output that fails is told above all else."""
        if 1 in closed and (self.prints or self.tables and not with_tables):
            return NO_OUTPUT
        if self.tables and not with_tables:
            return self.tables
        return NO_INPUT if self.reads and 0 in closed else 0


def calls(run):
    """A peer that calls the port and closes, where the program comes to listen."""
    silver = Silver()
    while run.process.poll() is None:
        try:
            connection = socket.create_connection(("127.0.0.1", run.port))
        except ConnectionRefusedError:
            time.sleep(PAUSE)
            continue
        silver.session(Initiator, connection, values("twa"))


def is_kept(run):
    """The standby to which a spool is pushed."""
    folder = f"{run.folder}/standby"
    os.mkdir(folder)
    return subprocess.Popen([run.programs["mta_follow"], "pull", str(run.port)], cwd=folder, stdout=subprocess.PIPE)


def pushes(run):
    """The spool that is pushed to a standby, once that listens."""
    folder = f"{run.folder}/pushed"
    os.mkdir(folder)
    shutil.copy(f"{run.base}/mta.spool", folder)
    subprocess.run([run.programs["mta_follow"], "push", "127.0.0.1", str(run.port)], cwd=folder,
                   stdout=subprocess.DEVNULL, timeout=WAIT, check=False)


COMMANDS = [
    Command("mta", "submit", reads=True, tables=NO_SOURCE),
    Command("mta", "spool"),
    Command("mta", "read", "watt"),
    Command("mta", "decode", reads=True),
    Command("mta", "drill", "1"),
    Command("mta", "serve", "1", "in:PORT", tables=NO_SOURCE, beside=calls),
    Command("mta_store", "list", "watt"),
    Command("mta_store", "fetch", "watt", "1"),
    Command("mta_store", "delete", "watt", "2", prints=False),
    Command("mta_audit", "mta.spool", "other/mta.spool"),
    Command("mta_audit", "other/mta.spool", "mta.spool"),
    Command("mta_follow", "push", "127.0.0.1", "PORT", beside=is_kept),
    Command("mta_follow", "pull", "PORT", beside=pushes),
    Command("mta_rehearse", "gold", "C=GB;A=GOLD;S=WATT", tables=NO_SOURCE),
]


def apdu_of(number):
    return message(OURS, THEIRS, f"D{number:05d}", apdu.content_of(100))


class Run:
    """A command in a folder of its own, with these descriptors closed."""

    told = {}  # what files of these octets hold

    def __init__(self, check, command, closing, with_tables, number):
        self.programs, self.base, self.command, self.closing = check.programs, check.base, command, closing
        self.folder, self.port = f"{check.folder}/{number}", free_port()
        shutil.copytree(check.base, self.folder)
        if not with_tables:
            os.remove(f"{self.folder}/mta.tables")

    def start(self):
        """Begins the program, under a shell that closes descriptors."""
        words = self.command.of_port(self.programs, self.port)
        with open(f"{self.base}/given.ber", "rb") as given:
            self.process = subprocess.Popen(["sh", "-c", f'exec "$0" "$@" {self.closing}', *words], cwd=self.folder,
                                            stdin=given, stdout=subprocess.PIPE, stderr=subprocess.PIPE)

    def status(self):
        """Its status, once it and what runs beside it have ended."""
        pulls = self.command.beside is is_kept and is_kept(self)
        if pulls:
            until_listens(pulls, self.port)
        self.start()
        if self.command.beside in (calls, pushes):
            if self.command.beside is pushes:
                until_listens(self.process, self.port)
            self.command.beside(self)
        self.process.communicate(timeout=WAIT)
        if pulls:
            pulls.communicate(timeout=WAIT)
        return self.process.returncode

    def texts(self):
        """What the spool and the marks hold, by the programs, with no moments. Of the same octets it is asked once."""
        held = []
        for name in FILES:
            with open(f"{self.folder}/{name}", "rb") as file:
                held.append(file.read())
        if tuple(held) not in self.told:
            self.told[tuple(held)] = self.texts_of_copy()
        return self.told[tuple(held)]

    def texts_of_copy(self):
        copy = f"{self.folder}/copy"
        for name in FILES:
            os.makedirs(os.path.dirname(f"{copy}/{name}"), exist_ok=True)
            shutil.copy(f"{self.folder}/{name}", f"{copy}/{name}")
        mta, store = self.programs["mta"], self.programs["mta_store"]
        return [said([mta, "spool"], copy), said([mta, "read", "watt"], copy), said([store, "list", "watt"], copy),
                said([mta, "spool"], f"{copy}/other")]


def until_listens(process, port):
    """Waits until a process listens at the port, by its socket alone, or has ended."""
    listens = f"{port:04X} " + 8 * "0"
    while process.poll() is None:
        with open("/proc/net/tcp6") as six, open("/proc/net/tcp") as four:
            if listens in six.read() + four.read():
                return
        time.sleep(PAUSE)


def said(words, folder):
    did = subprocess.run(words, cwd=folder, stdin=subprocess.DEVNULL, capture_output=True, text=True, timeout=WAIT)
    return did.returncode, re.sub(r"\d{12}Z", "MOMENT", did.stdout)


class Check:
    def __init__(self, folder, *programs):
        self.folder, self.base = folder, f"{folder}/base"
        self.programs = dict(zip(("mta", "mta_store", "mta_audit", "mta_follow", "mta_rehearse"), programs))
        agent = Agent(self.programs["mta"], self.base, TABLES.format(mode="twa"))
        for number in range(2):
            agent.submit(apdu_of(number))
        self.meet(agent)
        self.run([self.programs["mta_store"], "fetch", "watt", "2"], self.base)
        with open(f"{self.base}/given.ber", "wb") as file:
            file.write(apdu_of(9))

    def meet(self, agent):
        """One session with another agent, so that an audit has a lane to speak of."""
        other, port = Agent(self.programs["mta"], f"{self.base}/other", SILVER), free_port()
        other.submit(message(THEIRS, OURS, "E00001", apdu.content_of(100)))
        agent.serve("1", f"in:{port}")
        until_listens(agent.serving, port)
        other.run("serve", "1", f"out:gold:127.0.0.1:{port}")
        agent.told()

    @staticmethod
    def run(words, folder):
        status, text = said(words, folder)
        if status != 0:
            raise Wrong(f"{words} ended with {status}: {text}")

    def may_hold(self, command, with_tables, number):
        """What spool and marks may hold: as before, as after the command, and as after one whose output fails."""
        found = [Run(self, command, "", True, f"{number}-before").texts()]
        for at, closing in enumerate(("", NO_WRITE)):
            run = Run(self, command, closing, with_tables, f"{number}-wanted{at}")
            run.status()
            found.append(run.texts())
        return list(zip(*found))

    def of_command(self, numbered):
        """All sets of one command; what of it is wrong."""
        number, (command, with_tables) = numbered
        wrong, may_hold = [], self.may_hold(command, with_tables, number)
        for at, closed in enumerate(SETS):
            closing = " ".join(CLOSED[it] for it in closed)
            run = Run(self, command, closing, with_tables, f"{number}-{at}")
            status, want = run.status(), command.status(closed, with_tables)
            left = set(os.listdir(run.folder)) - MADE
            how = f"{command.told()} {closing} {'with' if with_tables else 'without'} tables"
            if status != want:
                wrong.append(f"{how}: status {status}, and not {want}")
            wrong += [f"{how}: the spool or the marks hold {it[0]} {it[1][:60]!r}"
                      for it, may in zip(run.texts(), may_hold) if it not in may]
            if left:
                wrong.append(f"{how}: it leaves {sorted(left)}")
            shutil.rmtree(run.folder)
        return wrong

    def without_devices(self, command):
        """The program where /dev/null cannot be had: it opens nothing, so it makes nothing. None where that cannot be
        tried."""
        empty, folder = f"{self.folder}/empty", f"{self.folder}/none-{command.program}"
        os.makedirs(empty, exist_ok=True)
        os.mkdir(folder)
        under = ["unshare", "--mount", "sh", "-c", NO_DEVICES, empty]
        if shutil.which("unshare") is None or subprocess.run([*under, "true"], capture_output=True).returncode:
            return None
        did = subprocess.run([*under, *command.of_port(self.programs, free_port())], cwd=folder,
                             stdin=subprocess.DEVNULL, capture_output=True, timeout=WAIT)
        made = os.listdir(folder)
        if did.returncode != NO_OUTPUT or made:
            return [f"{command.told()} without /dev/null: status {did.returncode}, and it makes {made}"]
        return []


def main():
    check, wrong = Check(*sys.argv[1:]), []
    jobs = list(enumerate(itertools.product(COMMANDS, (True, False))))
    with ThreadPoolExecutor(AT_ONCE) as pool:
        for found in pool.map(check.of_command, jobs):
            wrong += found
    Agent.end()
    if not wrong:
        print(f"five programs, {len(COMMANDS)} commands, {len(SETS)} sets of closed descriptors, with tables and "
              "without: spool and marks are what they are to be, and so is the status")
    firsts = [next(it for it in COMMANDS if it.program == name) for name in check.programs]
    tried = [check.without_devices(it) for it in firsts]
    if None in tried:
        print("left out: /dev/null cannot be taken away here")
    elif not any(tried):
        print(f"without /dev/null: status {NO_OUTPUT} of each, and nothing is made")
    wrong += [line for it in tried for line in it or ()]
    print(*wrong, sep="\n" if wrong else "", end="\n" if wrong else "")
    return 1 if wrong else 0


if __name__ == "__main__":
    try:
        sys.exit(main())
    except Wrong as why:
        sys.exit(f"{why}")
