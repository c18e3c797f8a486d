"""Two agents with bridges between them, in a folder: GOLD and SILVER, of which each calls the other over OSI."""
import itertools
import os
import random
import subprocess
import sys
import time
from pathlib import Path

from post import LINE, Post
from tap import Tap

TOP = Path(__file__).resolve().parents[2]
sys.path.insert(0, str(TOP / "contrib" / "lib"))
import journal  # noqa: E402
import p1  # noqa: E402
import state  # noqa: E402

BRIDGE = TOP / "contrib" / "mta-osi"
NAMES = {"gold": ("GOLD-1", "C=GB;A=GOLD", "bell"), "silver": ("SILVER-1", "C=US;A=SILVER", "morse")}
OTHER = {"gold": "silver", "silver": "gold"}
# ports beside the first one: what the bridge out, the relay and the bridge in of each caller listen at, the station
# that is called then, and that of a post office
OUT, TAP, IN, STATION, POST = 0, 1, 2, 3, 4
SETTINGS = """peer {peer}
agent {agent}
agent-tsel MTA-{agent}
agent-ssel RTSE
agent-psel {agent_word}
peer-tsel MTA-{peer}
peer-ssel RTSE
peer-psel {peer_word}
agent-ap-title 2.6.0.1.{agent_number}
agent-ae-qualifier {agent_number}
peer-ap-title 2.6.0.1.{peer_number}
peer-ae-qualifier {peer_number}
unseen-end 1
"""


worlds = itertools.count()


def base_port():
    """Ten ports for each world of this process, away from those that are given to connections."""
    return 10_000 + os.getpid() % 200 * 100 + 10 * next(worlds)


def name_of(side):
    _, domain, mailbox = NAMES[side]
    return f"{domain};S={mailbox.upper()}"


def message(side, number, content):
    """An APDU of a message from one side to the other, with a report."""
    sender, recipient = p1.name_from(name_of(side)), p1.name_from(name_of(OTHER[side]))
    return p1.message_octets(sender, [recipient], f"M{number:05}", content, report=True)


class World:
    """`callers` are the sides that call. `mode`, `size` and `window` are those of the tables."""

    def __init__(self, mta, folder, callers=("gold",), mode="twa", size=16, window=3, traced=False, extra="", seed=1,
                 ways=None):
        self.mta, self.folder, self.callers, self.extra = Path(mta).absolute(), Path(folder), callers, extra
        self.tables = f"{mode} {size} {window}"
        self.base, self.processes, self.kills, self.ways = base_port(), {}, 0, ways or {}
        self.random = random.Random(seed)
        for side in NAMES:
            self.make(side)
        self.taps = {side: Tap(self.port(side, TAP), self.port(side, IN),
                               self.folder / side / "trace" if traced else None, seed) for side in callers}

    def port(self, caller, which):
        return self.base + 5 * list(NAMES).index(caller) + which

    def make(self, side):
        name, domain, mailbox = NAMES[side]
        peer, other_domain, _ = NAMES[OTHER[side]]
        folder = self.folder / side
        folder.mkdir(parents=True, exist_ok=True)
        lines = [f"domain {domain}", f"name {name}", f"peer {peer} from-{side} from-{OTHER[side]} {self.tables}",
                 f"mailbox {mailbox} {name_of(side)}", f"route {other_domain} peer {peer}", LINE]
        (folder / "mta.tables").write_text("\n".join(lines) + "\n")
        numbers = {it: at + 1 for at, it in enumerate(NAMES)}
        text = SETTINGS.format(peer=peer, agent=name, agent_word=side, peer_word=OTHER[side],
                               agent_number=numbers[side], peer_number=numbers[OTHER[side]])
        (folder / "peer.conf").write_text(text + self.extra)

    # Processes ---------------------------------------------------------------------------------------------

    def start(self, name, words, folder):
        with open(folder / f"{name}.log", "a", encoding="utf-8") as log:
            self.processes[name] = subprocess.Popen(list(map(str, words)), cwd=folder, stdin=subprocess.DEVNULL,
                                                    stdout=log, stderr=log)

    def start_bridge(self, way, caller):
        """The bridge beside the side that calls (out) or is called (in)."""
        side = caller if way == "out" else OTHER[caller]
        here, there = (OUT, TAP) if way == "out" else (IN, STATION)
        folder, name = self.folder / side, f"{way}-{caller}"
        program = self.ways.get(way, [sys.executable, BRIDGE])
        self.start(name, [*program, "--map", f"{name}.map", way, f"127.0.0.1:{self.port(caller, here)}",
                          f"127.0.0.1:{self.port(caller, there)}", "peer.conf"], folder)

    def start_bridges(self):
        for caller in self.callers:
            self.start_bridge("in", caller)
            self.start_bridge("out", caller)
        time.sleep(1)

    def stations(self, side):
        """What a side serves at: it is called by the other one, and calls it."""
        found = [f"in:{self.port(OTHER[side], STATION)}"] if OTHER[side] in self.callers else []
        calls = [f"out:{NAMES[OTHER[side]][0]}:127.0.0.1:{self.port(side, OUT)}"] if side in self.callers else []
        return found + calls

    def start_agent(self, side, sessions=1_000_000):
        self.start(side, [self.mta, "serve", sessions, *self.stations(side)], self.folder / side)

    def restart(self, name):
        self.kill(name)
        if name in NAMES:
            self.start_agent(name)
        else:
            self.start_bridge(*name.split("-"))

    def kill(self, name):
        process = self.processes.pop(name)
        process.kill()
        process.wait()

    def stop(self):
        for name in list(self.processes):
            self.kill(name)

    # One program of mta after another ----------------------------------------------------------------------

    def run(self, side, *words, octets=None, seconds=900, program=None):
        run = subprocess.run([program or self.mta, *words], cwd=self.folder / side, input=octets,
                             stdout=subprocess.PIPE, stderr=subprocess.DEVNULL, timeout=seconds, check=False)
        return run.stdout.decode()

    def submit(self, side, number, content):
        apdu = message(side, number, content)
        said = self.run(side, "submit", octets=apdu)
        assert said.startswith("accepted "), said
        return apdu

    def hand_over(self, side, contents):
        """Messages with these contents, to an agent that is started for it."""
        port = self.port(side, POST)
        self.start(side, [self.mta, "serve", 1, f"in:{port}"], self.folder / side)
        for _ in range(600):
            time.sleep(0.1)
            try:
                post = Post(port)
                break
            except ConnectionRefusedError:
                pass
        for number, content in enumerate(contents, 1):
            post.send(number, message(side, number, content))
        post.close()
        self.processes.pop(side).wait(60)

    def call(self, side):
        """One session that a side calls for."""
        return self.run(side, "serve", "1", *self.stations(side)).strip()

    def pending(self, side):
        return sum(" pending " in line for line in self.run(side, "spool").splitlines())

    def waiting(self, side):
        """The same of an agent that serves, by the tools that read a spool without its lock."""
        return len(list(state.replay(journal.Journal(str(self.folder / side / "mta.spool"))).pending()))

    # What came of it ---------------------------------------------------------------------------------------

    def check(self, sent):
        """Each message arrived once, with its octets, and each report once; the spools agree. `sent` has the contents
        by side. The lines that say so."""
        for side, contents in sent.items():
            self.check_side(side, contents)
        first, second = (self.folder / side / "mta.spool" for side in NAMES)
        audit = subprocess.run([self.mta.parent / "mta_audit", first, second], stdout=subprocess.PIPE, check=False)
        lines = audit.stdout.decode().splitlines()
        assert audit.returncode == 0, lines
        return lines

    def check_side(self, side, contents):
        domain, other = NAMES[side][1], OTHER[side]
        numbers = range(1, len(contents) + 1)
        got = self.run(other, "read", NAMES[other][2]).splitlines()
        named = sorted(line for line in got if line.startswith("message "))
        expected = [f"message {domain}/M{it:05}" for it in numbers]
        assert named == expected, (side, len(named), len(expected))
        found = sorted(line.split()[2] for line in got if line.startswith("content "))
        assert found == sorted(it.hex() for it in contents), f"{side}: other octets arrived"
        back = self.run(side, "read", NAMES[side][2]).splitlines()
        reported = sorted(line for line in back if line.startswith("subject "))
        assert reported == [f"subject {domain}/M{it:05}" for it in numbers], (side, len(reported))
        # no report says that a message was not delivered
        outcomes = [line.split()[3] for line in back if line.startswith("recipient ") and len(line.split()) > 3]
        assert "non-delivery" not in outcomes, f"{side}: a message is reported as not delivered"
