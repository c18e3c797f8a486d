"""Processes of the peer that are killed at every unit of a session, and new ones over the same folders."""
import os
import subprocess
import sys
import tempfile
import time

import apdu
import peer
from pairs import Wrong
from record import Folder, Record

PEER = os.path.join(os.path.dirname(os.path.abspath(__file__)), "peer.py")
NAMES = {"call": ["--name", "silver", "--peer", "gold", "--password", "ours", "--expected", "theirs"],
         "listen": ["--name", "gold", "--peer", "silver", "--password", "theirs", "--expected", "ours"]}


class Process:
    """A process of its own that runs the peer with these words; what it tells goes into a file."""

    def __init__(self, told, *words):
        self.told, self.status = told, None
        sys.stdout.flush()
        self.number = os.fork()
        if self.number == 0:
            status = 9
            try:
                os.dup2(os.open(told, os.O_WRONLY | os.O_CREAT | os.O_TRUNC, 0o600), 1)
                status = peer.main(list(words))
            finally:
                os._exit(status)

    def gone(self, how=os.WNOHANG):
        """Whether it is over."""
        if self.status is None:
            number, status = os.waitpid(self.number, how)
            self.status = status if number else None
        return self.status is not None

    def wait(self):
        """Whether it was killed, and its lines."""
        self.gone(0)
        with open(self.told) as told:
            return os.WIFSIGNALED(self.status), told.read()


def port_of(file, process):
    """The port that the process has written there."""
    while not os.path.exists(file):
        if process.gone():
            raise Wrong("the listening process ended before it had a port")
        time.sleep(0.002)
    with open(file) as port:
        return int(port.read())


def session(folders, made, mode, kill=None, number=0):
    """One association between two new processes; `kill` is the side that is killed at this unit."""
    more = {side: ["--break-after", str(number), "--how", "kill"] if side == kill else [] for side in folders}
    port = os.path.join(made, "port")
    if os.path.exists(port):
        os.remove(port)
    listens = Process(os.path.join(made, "listens"), "listen", "127.0.0.1:0", folders["listen"], "--port-file", port,
                      "--mode", mode, *NAMES["listen"], *more["listen"])
    at = f"127.0.0.1:{port_of(port, listens)}"
    calls = Process(os.path.join(made, "calls"), "call", at, folders["call"], "--mode", mode, *NAMES["call"],
                    *more["call"])
    one, told = calls.wait()
    other, also = listens.wait()
    return one or other, told.endswith("end closed\n"), told + also


def one(made, mode, side, number):
    """Messages both ways with a kill at this unit; answers whether the session was so long."""
    folders = {which: os.path.join(made, f"{which}-{mode}-{side}-{number}") for which in ("call", "listen")}
    sizes = {"call": 1000} if mode == "monologue" else {"call": 100, "listen": 1000}
    for which, size in sizes.items():
        text = apdu.message("C=GB;A=SILVER;S=BELL", "C=GB;A=GOLD;S=WATT", b"M0001", apdu.content_of(size))
        Record(Folder(folders[which])).step("queue", text)
    killed, closed, told = session(folders, made, mode, side, number)
    for _ in range(5):
        if closed:
            break
        _, closed, more = session(folders, made, mode)
        told += more
    states = {which: Record(Folder(folder)).state for which, folder in folders.items()}
    for which, other in (("call", "listen"), ("listen", "call")):
        sent = states[which].messages
        if [octets for octets, _ in sent] != states[other].received or any(status != "sent" for _, status in sent):
            raise Wrong(f"{mode}, {side} killed at unit {number}: the messages did not arrive once each\n{told}")
    return killed


def command_line(made):
    """The command's own words, once."""
    folder = os.path.join(made, "words")
    wanted = [(["queue", folder, "--size", "0"], "queued 145 octets\n"),
              (["show", folder], "message 0 octets 145 waits\n")]
    for words, told in wanted:
        found = subprocess.run([sys.executable, PEER, *words], capture_output=True, text=True)
        if found.stdout != told:
            raise Wrong(f"{words}: {found.stdout}{found.stderr}")


def run():
    count = 0
    # a kill loses nothing that was written, so a folder in memory does where there is one
    with tempfile.TemporaryDirectory(dir="/dev/shm" if os.access("/dev/shm", os.W_OK) else None) as made:
        command_line(made)
        for mode, side in (("monologue", "call"), ("monologue", "listen"), ("twa", "call"), ("twa", "listen")):
            number = 1
            while one(made, mode, side, number):
                number += 1
            count += number - 1
    print(f"{count} kills of a process, one at every unit: every message arrived once", flush=True)
