"""Sixteen stations of one process, of which fifteen have a hostile peer, and a true peer at the sixteenth."""
import os
import random
import re
import socket
import statistics
import subprocess
import sys
import time

import apdu
from agent import Agent, connect, free_port, message
from initiator import Initiator
from pairs import Wrong
from real import OURS, Silver, check_mailbox, values
from rogues import OTHERS, OWN

RANDOM = 1_000  # connections that bring random octets
CROWD = ("closes", "closes", "babbles", "babbles", "is_silent", "drips", "drips", "is_deaf", "is_deaf", "is_great",
         "is_great", "syncs", "asks", "asks", "guesses")
MESSAGES, SIZE = 5, 2_500  # of a session of the true peer
PER_STATION = 16 << 20  # octets of memory for a session, whatever the peer gives
TABLES = """domain C=GB;A=GOLD
name gold
peer silver theirs ours twa 1 3
mailbox watt C=GB;A=GOLD;S=WATT
mailbox trash C=GB;A=GOLD;S=TRASH
"""
TRASH = "C=GB;A=GOLD;S=TRASH"


def memory(process):
    """The most octets of memory that the process has had."""
    with open(f"/proc/{process.pid}/status") as file:
        return int(re.search(r"^VmHWM:\s*(\d+) kB", file.read(), re.M)[1]) << 10


def is_watched(mta):
    """Whether the program is an unproved one, which watches its memory and so needs much more of it."""
    with open(mta, "rb") as file:
        return b"AddressSanitizer" in file.read()


def one_session(silver, port):
    """A session in which the true peer brings messages: the seconds for one of them."""
    for _ in range(MESSAGES):
        silver.queue(SIZE)
    connection, start = connect(port), time.monotonic()
    end, _ = silver.session(Initiator, connection, values("twa"))
    if end != "closed":
        raise silver.wrong(f"a session of the true peer ended {end}")
    return (time.monotonic() - start) / MESSAGES


def sessions(silver, port, seconds):
    """Sessions for so long: the seconds for a message in each."""
    end, took = time.monotonic() + seconds, []
    while len(took) < 4 or time.monotonic() < end:
        took.append(one_session(silver, port))
    return took


def check_kept(agent, silver):
    """Once the process is killed, each message of the true peer is there, and once."""
    agent.kill()
    # a submit does what is due
    agent.submit(message(OURS, TRASH, "T00001", apdu.content_of(2)))
    check_mailbox(agent, silver)


class Crowd:
    """The hostile peers at these ports, each a process."""

    def __init__(self, ports):
        here = os.path.dirname(os.path.abspath(__file__))
        self.running = [subprocess.Popen([sys.executable, f"{here}/rogues.py", kind, str(port), f"rogue{number}"],
                                         stderr=subprocess.DEVNULL)
                        for number, (kind, port) in enumerate(zip(CROWD, ports))]

    def __enter__(self):
        time.sleep(1)
        return self

    def __exit__(self, *_):
        for it in self.running:
            it.kill()
        for it in self.running:
            it.wait()

    def check(self):
        for kind, it in zip(CROWD, self.running):
            if it.poll() is not None:
                raise Wrong(f"the hostile peer that {kind} ended with {it.returncode}")


def sixteen(mta, folder, seconds):
    """Beside fifteen stations with hostile peers a true peer's messages pass, and each is there once."""
    rogues = "".join(f"peer rogue{n} {OTHERS.decode()} {OWN.decode()} twa 0 3\n" for n in range(len(CROWD)))
    agent, silver, ports = Agent(mta, folder, TABLES + rogues), Silver(), [free_port() for _ in range(len(CROWD) + 1)]
    agent.serve("1000000", *(f"in:{it}" for it in ports))
    alone = sessions(silver, ports[-1], seconds / 4)
    before = memory(agent.serving)
    with Crowd(ports) as crowd:
        beside = sessions(silver, ports[-1], seconds / 2)
        most = memory(agent.serving) - before
        crowd.check()
    alone += sessions(silver, ports[-1], seconds / 4)
    check_kept(agent, silver)
    quick, slow = (statistics.quantiles(it)[0] * 1000 for it in (alone, beside))
    bound = PER_STATION * len(ports)
    print(f"fifteen hostile stations beside it: a true peer's messages pass, and each is there once; the agent's "
          f"memory {'is not looked at' if is_watched(mta) else 'stays below its bound'}", flush=True)
    print(f"figures: {silver.count} messages; a message takes {quick:.1f} ms alone, and {slow / quick:.1f} times as "
          f"long beside them (wished: at most 2); memory grows by {most >> 20} MB of {bound >> 20}", flush=True)
    if most > bound and not is_watched(mta):
        raise Wrong("more memory than the manual says")


def random_octets(mta, folder):
    """Connections that bring random octets, and a true peer behind each hundredth."""
    agent, silver, port, chance = Agent(mta, folder, TABLES), Silver(), free_port(), random.Random(1)
    agent.serve("1000000", f"in:{port}")
    one_session(silver, port)
    for number in range(RANDOM):
        with connect(port) as connection:
            try:
                connection.sendall(chance.randbytes(chance.randrange(1, 20_000)))
                connection.shutdown(socket.SHUT_WR)
                while connection.recv(1000):
                    pass
            except OSError:
                pass
        if number % 100 == 99:
            one_session(silver, port)
    check_kept(agent, silver)
    lanes = re.findall(r"^lane .*$", agent.run("spool"), re.M)
    if lanes:
        raise Wrong(f"random octets opened {lanes}")
    print("1,000 connections of random octets: no lane is opened, and a true peer's messages are there once",
          flush=True)
