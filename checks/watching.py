#!/usr/bin/env python3
"""The tools by which an agent is watched and its mailboxes are read while it serves, against `mta` and `mta_store`:
checks/watching.py MTA FOLDER MTA_STORE [NAME ..], for checks/contrib.sh; with names, of these alone.

What is wanted is what the programs print themselves, the counts of what was handed over, and spools by hand.
"""
import contextlib
import html.parser
import json
import os
import re
import shutil
import signal
import socket
import subprocess
import sys
import time
from concurrent.futures import ThreadPoolExecutor

from contrib import (AT_ONCE, CONTRIB, GOLD, MADE, SILVER, STORE, Wrong, a_port, agent, meet, message, mta, ran,
                     record, sample, serving, stations_of, tool, tried, until, want)
import journal
import stations
import survey

BELL, WATT, MORSE = "C=GB;A=GOLD;S=BELL", "C=GB;A=GOLD;S=WATT", "C=US;A=SILVER;S=MORSE"
FUTURE = 1_000_000_000  # seconds, some thirty years
LONG = 120  # seconds that a busy machine may take for what takes one


def in_folder(name, *words, folder, octets=b"", status=0, **more):
    """What a tool prints in a folder of an agent."""
    return ran([f"{CONTRIB}/{name}", *words], folder, octets, status, env={**os.environ, "MTA_STORE": STORE},
               **more).decode()


def write_spool(folder, *bodies):
    """A spool by hand, in the first of two areas, with the records that are given."""
    with open(f"{folder}/mta.spool", "wb") as file:
        file.write(journal.AREAS + bytes(9) + b"".join(b"\x01" + it for it in bodies) + b"\x00")


def append(folder, *bodies):
    """Appends records behind the last closed gate."""
    with open(f"{folder}/mta.spool", "r+b") as file:
        file.seek(-1, os.SEEK_END)
        file.write(b"".join(b"\x01" + it for it in bodies) + b"\x00")


def tables_of(folder):
    with open(f"{folder}/mta.tables", "rb") as file:
        return file.read()


def listens(folder):
    """Waits until the agent that serves there listens."""
    until(lambda: " since 0 " not in stations_of(folder) and " since " in stations_of(folder), LONG)


# ---- the mailbox of an agent that serves


def try_box():
    """Entries are listed, fetched and deleted while the agent serves, and mta_store finds the same after it."""
    folder = agent("boxes", "domain C=GB;A=GOLD", "name GOLD-1", "mailbox watt C=GB;A=GOLD;S=WATT")
    for identifier in ("B1", "B2", "B3"):
        mta(folder, "submit", octets=message(BELL, WATT, identifier))
    direct = ran([STORE, "list", "watt"], folder).decode()
    os.remove(f"{folder}/mta.marks")

    def box(*words, status=0):
        return in_folder("mta-box", folder, *words, folder=MADE, status=status)

    def left():
        return [it.split()[:2] for it in box("list", "watt").splitlines()]

    with serving(folder, f"in:{a_port()}"):
        listens(folder)
        want("mta-box list", box("list", "watt"), direct)
        want("the owner's right to the marks", os.stat(f"{folder}/mta.marks").st_mode & 0o777, 0o600)
        fetched = box("fetch", "watt", "1")
        want("the first entry", fetched.splitlines()[0], "message C=GB;A=GOLD/B1")
        want("a new entry", box("delete", "watt", "2", status=13), "not fetched 2\n")
        box("delete", "watt", "1")
        in_folder("fetch.py", "watt", "2", f"{MADE}/box-content", folder=folder)
        want("the list", left(), [["2", "fetched"], ["3", "new"]])
        want("an entry that is not there", box("fetch", "watt", "9", status=12), "no entry 9\n")
        want("a mailbox that is not there", box("list", "bell", status=10), "no such mailbox bell\n")
    want("mta_store after it", [it.split()[:2] for it in ran([STORE, "list", "watt"], folder).decode().splitlines()],
         left())
    for words in (["list", "watt", "1"], ["fetch", "watt"], ["show", "watt"], []):
        in_folder("mta-box", folder, *words, folder=MADE, status=2)
    in_folder("mta-box", f"{MADE}/nowhere", "list", "watt", folder=MADE, status=2)
    in_folder("mta-box", folder, "list", "watt", "--mta-store", f"{MADE}/nowhere", folder=MADE, status=2)
    by_many(folder)
    as_another(folder)


def by_many(folder):
    """Calls at once: each entry is fetched, and the marks are whole."""
    for at in range(8):
        mta(folder, "submit", octets=message(BELL, WATT, f"M{at}"))
    with ThreadPoolExecutor(4) as pool:
        jobs = [pool.submit(in_folder, "mta-box", folder, "fetch", "watt", str(at), folder=MADE)
                for at in range(4, 12)]
        said = [it.result().splitlines()[0] for it in jobs]
    want("entries", said, [f"message C=GB;A=GOLD/M{at}" for at in range(8)])
    lines = ran([STORE, "list", "watt"], folder).decode().splitlines()
    want("what is fetched", [it.split()[1] for it in lines if int(it.split()[0]) > 3], ["fetched"] * 8)


def as_another(folder):
    """mta-fetch asks sudo for the entry, by the words of the rule that is there as a sample."""
    place = f"{MADE}/sudo"
    os.makedirs(place)
    with open(f"{place}/sudo", "w", encoding="utf-8") as file:
        file.write(f'#!/bin/sh\necho "$*" >"{place}/said"\nshift 5\nexec "{CONTRIB}/mta-box" "$@"\n')
    os.chmod(f"{place}/sudo", 0o755)
    env = {**os.environ, "PATH": f"{place}:{os.environ['PATH']}", "MTA_STORE": STORE}
    ran([f"{CONTRIB}/fetch.py", "--as", "mta", "--folder", folder, "watt", "3", f"{MADE}/as-content"], MADE, env=env)
    with open(f"{place}/said", encoding="utf-8") as file:
        want("the words for sudo", file.read(), f"-n -u mta -- mta-box {folder} fetch watt 3\n")
    with open(f"{MADE}/as-content", "rb") as file, open(f"{MADE}/box-content", "rb") as other:
        want("whether a content came", (len(file.read()) > 20, len(other.read()) > 20), (True, True))
    if shutil.which("visudo"):
        ran(["visudo", "--check", f"--file={CONTRIB}/sudoers"])
    else:
        print("skipped: visudo is not on the PATH")


# ---- a log that goes on


class Log:
    """mta-log --follow --json with a file of what was told; `lines` are what it has printed so far."""

    def __init__(self, folder, name, *words):
        self.words = [f"{CONTRIB}/mta-log", "--follow", "--json", "--state", f"{MADE}/{name}.told", *words, folder]
        self.path, self.running = f"{MADE}/{name}.log", None

    def start(self):
        with open(self.path, "ab") as file:
            self.running = subprocess.Popen(self.words, stdout=file)

    def stop(self, how=signal.SIGTERM):
        self.running.send_signal(how)
        return self.running.wait(LONG)

    @contextlib.contextmanager
    def runs(self):
        """It runs meanwhile, and is stopped whatever comes."""
        self.start()
        try:
            yield
        finally:
            status = self.stop()
        want("the status of a stop", status, 0)

    def told(self):
        with open(self.path, encoding="utf-8") as file:
            return [json.loads(it) for it in file if it.endswith("\n")]

    def steps(self):
        return [it["step"] for it in self.told()]

    def run_until(self, is_done):
        """Runs it until that is so of what it has told, and stops it."""
        with self.runs():
            until(lambda: is_done(self.told()), LONG)


def now_of_spool():
    return int(time.time()) - journal.FROM_1950


def heavy(names, lane):
    """Steps by which messages of 150 KB each, for a peer, are accepted, and a lane is opened; and their moment."""
    now = now_of_spool()
    accepted = [record(2, now, message("--raw", "22", BELL, MORSE, it, text=bytes(150_000))) for it in names]
    opened = record(9, 0, b"SILVER-1", b"GOLD-1", now, 1, b"%010d" % lane, 1, 1, 3, now)
    return [*accepted, opened, record(10, lane, 1, 1, 3)], now


def sent_steps(lane, items, now):
    made = []
    for activity, item in enumerate(items, 1):
        made += [record(12, lane, 1, activity, item, [1], now), record(14, lane, 1, activity),
                 record(15, lane, 1, activity, now)]
    return [*made, record(23, lane, 1)]


def identifiers(told, step):
    return [it["identifier"].rsplit("/", 1)[1] for it in told if it["step"] == step]


def try_going_on():
    """A log that is stopped, over a spool that shrinks meanwhile: with an archive each step is told once, without one a
    line says that some are missing; and another spool in the place of the first one is told from its beginning."""
    folder, kept = agent("long", *GOLD), f"{MADE}/long-archive"
    names = [f"L{at}" for at in range(8)]
    bodies, now = heavy(names[:4], 1)
    write_spool(folder, record(1, tables_of(folder)), *bodies)
    log = Log(folder, "long", "--archive", kept)
    log.run_until(lambda it: identifiers(it, "accept") == names[:4])
    # meanwhile it is stopped: the rest is done, and a copy is kept before the opening at which it goes
    more, later = heavy(names[4:], 2)
    append(folder, *sent_steps(1, range(1, 5), now), *more, *sent_steps(2, range(5, 9), later))
    said = tool("mta-archive", folder, kept).decode()
    want("mta-archive", re.sub(r"\S+\.spool, \d+", "FILE, N", said), "kept FILE, N octets\n")
    octets = os.path.getsize(f"{folder}/mta.spool")
    about = survey.Survey().go_through(journal.Journal(f"{folder}/mta.spool")).shrinks_to(octets)
    mta(folder, "spool")
    after = os.path.getsize(f"{folder}/mta.spool")
    if not (after * 2 <= octets and 0.7 * after <= about <= 1.4 * after):
        raise Wrong(f"the spool shrank from {octets} to {after} octets; about {about} were foreseen")
    mta(folder, "submit", octets=message(BELL, WATT, "BEHIND"))
    log.run_until(lambda it: "BEHIND" in identifiers(it, "deliver"))
    told = log.told()
    want("each message accepted once", identifiers(told, "accept"), [*names, "BEHIND"])
    want("each message sent once", identifiers(told, "sent"), names)
    want("lines beside the steps", [it for it in log.steps() if it in ("gap", "spool")], [])
    want("snapshots", log.steps().count("snapshot"), 1)
    want("each record once", len({it["record"] for it in told if "record" in it}), len(told))
    without_archive(folder, log)
    another_spool(folder, log)


def without_archive(folder, log):
    """What no archive has is said to be missing."""
    bodies, now = heavy([f"G{at}" for at in range(8)], 3)
    append(folder, *bodies, *sent_steps(3, range(10, 18), now))
    mta(folder, "spool")
    log.run_until(lambda it: "gap" in [each["step"] for each in it])
    gap = next(it for it in log.told() if it["step"] == "gap")
    want("the gap", (gap["before"], gap["after"]), ({"items": 9, "pending": 0, "opened": 2},
                                                    {"items": 17, "pending": 0, "opened": 3}))


def another_spool(folder, log):
    """A spool that begins anew while the log runs: what the old one still had is told first."""
    with log.runs():
        append(folder, record(2, now_of_spool(), message(BELL, WATT, "RUNS")))
        until(lambda: "RUNS" in identifiers(log.told(), "accept"), LONG)
        count = len(log.told())
        append(folder, record(2, now_of_spool(), message(BELL, WATT, "LAST")))
        os.rename(f"{folder}/mta.spool", f"{folder}/old.spool")
        mta(folder, "submit", octets=message(BELL, WATT, "FIRST"))
        until(lambda: "FIRST" in identifiers(log.told(), "deliver"), LONG)
    steps = log.steps()[count:]
    want("the steps over another spool", steps[:2] + steps[-2:], ["accept", "spool", "accept", "deliver"])
    want("what was accepted", identifiers(log.told()[count:], "accept"), ["LAST", "FIRST"])
    want("the status of wrong words", (tool("mta-log", "--state", "x", folder, status=2),
                                       tool("mta-log", "--journal", "--json", folder, status=2)), (b"", b""))
    with open(f"{MADE}/long.told", "w", encoding="ascii") as file:
        file.write("{}")
    want("a file of something else", ran(log.words, status=2), b"")


def try_kills():
    """A log that is killed at any moment loses no step; what it tells twice is what it was telling."""
    folder = agent("kills", *GOLD)
    bodies = [record(2, now_of_spool(), message(BELL, WATT, f"K{at}")) for at in range(60)]
    write_spool(folder, record(1, tables_of(folder)), *bodies[:20])
    log = Log(folder, "kills")
    for at in range(20, 60, 5):
        log.start()
        append(folder, *bodies[at:at + 5])
        time.sleep(0.05 * (at % 7))
        log.stop(signal.SIGKILL)
    log.run_until(lambda it: "K59" in identifiers(it, "accept"))
    want("messages", sorted(set(identifiers(log.told(), "accept")), key=lambda it: int(it[1:])),
         [f"K{at}" for at in range(60)])


def a_call(port, octets):
    """Puts octets to a station, and reads until it closes."""
    with socket.create_connection(("127.0.0.1", port), 30) as it:
        it.sendall(octets)
        it.settimeout(30)
        try:
            while it.recv(4096):
                pass
        except OSError:
            pass


def try_refused():
    """Calls with a wrong password, and with octets that are no unit, are counted; one that was taken is not."""
    called, port = agent("called", *SILVER), a_port()
    stranger = agent("stranger", *(it.replace("from-gold", "guess") for it in GOLD))
    friend = agent("friend", *GOLD)
    log = Log(called, "called")
    with serving(called, f"in:{port}"):
        listens(called)
        mta(friend, "serve", "1", f"out:SILVER-1:127.0.0.1:{port}")
        mta(stranger, "serve", "1", f"out:SILVER-1:127.0.0.1:{port}")
        a_call(port, b"\xff" * 16)
        until(lambda: stations.stations_in(called)[0].sessions == 3, LONG)
        log.run_until(lambda it: sum(each.get("count", 0) for each in it) == 2)
        said = tool("check-mta", "--stations", "--warn-refused", "2", called, status=1).decode()
        tool("check-mta", "--stations", "--warn-refused", "3", called)
        tool("check-mta", "--stations", "--crit-refused", "1", called, status=2)
        metrics = tool("check-mta", "--stations", "--metrics", "-", called).decode()
    want("sessions with a step", log.steps().count("open-lane"), 1)
    last = [it for it in log.told() if it["step"] == "refused-calls"][-1]
    want("refused calls, and who called", (last["in_all"], last["peers"][0].split(":")[0]), (2, "127.0.0.1"))
    if "2 calls were refused" not in said or 'mta_refused_calls_total{agent="called"} 2\n' not in metrics:
        raise Wrong(f"check-mta says of two refused calls:\n{said}{metrics}")


# ---- the archive


def archived(folder):
    return sorted(it for it in os.listdir(folder) if it.endswith(".spool"))


def try_archive():
    """A copy is made where a spool may shrink and else not; one that begins a later one goes; age and size count."""
    folder, kept = agent("kept", *GOLD), f"{MADE}/kept-archive"
    mta(folder, "submit", octets=message(BELL, WATT, "SMALL"))
    want("a small spool", (tool("mta-archive", folder, kept), archived(kept)), (b"", []))
    big = [record(2, now_of_spool(), message("--raw", "22", BELL, WATT, f"B{at}",
                                                                  text=bytes(200_000))) for at in range(6)]
    deliveries = [record(3, at, 1, now_of_spool()) for at in range(1, 7)]
    write_spool(folder, record(1, tables_of(folder)), *big, *deliveries)
    want("what stays in a mailbox", (tool("mta-archive", folder, kept), archived(kept)), (b"", []))
    with open(f"{kept}/looked.json", encoding="utf-8") as file:
        want("octets that stay at least", json.load(file)["least"] > 1_200_000, True)
    tool("mta-archive", "--always", folder, kept)
    first = archived(kept)
    mta_spool = os.path.getsize(f"{folder}/mta.spool")
    want("the copy", os.path.getsize(f"{kept}/{first[0]}"), mta_spool)
    want("others' right to it", os.stat(f"{kept}/{first[0]}").st_mode & 0o077, 0)
    append(folder, record(2, now_of_spool(), message(BELL, WATT, "MORE")))
    time.sleep(1.1)  # the name of a copy has seconds
    said = tool("mta-archive", "--always", folder, kept).decode()
    want("in place of its beginning", (len(archived(kept)), "in place of the one before" in said), (1, True))
    os.remove(f"{folder}/mta.spool")
    mta(folder, "submit", octets=message(BELL, WATT, "ANEW"))
    time.sleep(1.1)
    tool("mta-archive", "--always", folder, kept)
    want("copies of two histories", len(archived(kept)), 2)
    tool("mta-archive", "--octets", "1000", folder, kept)
    want("what is left by size", len(archived(kept)), 1)
    os.utime(f"{kept}/{archived(kept)[0]}", (0, 0))
    want("what is left by age", (tool("mta-archive", folder, kept).startswith(b"dropped "), archived(kept)),
         (True, []))
    tool("mta-archive", folder, status=2)


# ---- one message


def events(*words):
    """What mta-trace prints, as lists: the agent, the event and what stands behind the item."""
    lines = tool("mta-trace", *words).decode().splitlines()
    moment = re.compile(r"\d{4}-\d\d-\d\dT\S+ ")
    return [(it[0], it[1], " ".join(it[4:])) for it in (moment.sub("", line, 1).split(" ") for line in lines)]


def try_trace():
    """A message to a list, one member of which is at another agent: each step of it over both agents, from spools, from
    logs and from what a snapshot has."""
    gold, silver = agent("trace-gold", *GOLD), agent("trace-silver", *SILVER)
    mta(gold, "submit", octets=message("--report", BELL, "C=GB;A=GOLD;CN=STAFF", "TRACED"))
    mta(gold, "submit", octets=message(BELL, WATT, "ANOTHER"))
    meet(gold, "SILVER-1", silver)
    meet(gold, "SILVER-1", silver)
    found = events("C=GB;A=GOLD/TRACED", gold, silver)
    for line in (("GOLD-1", "taken", f"submitted from {BELL} to C=GB;A=GOLD;CN=STAFF"),
                 ("GOLD-1", "expanded", "recipient 1 C=GB;A=GOLD;CN=STAFF"),
                 ("GOLD-1", "made", f"copy for {WATT}, C=GB;A=GOLD;S=FARADAY, C=US;A=SILVER;CN=OUTER"),
                 ("GOLD-1", "delivered", f"recipient 1 {WATT} mailbox watt"),
                 ("GOLD-1", "reported", "recipient 2 C=GB;A=GOLD;S=FARADAY"),
                 ("GOLD-1", "routed", "recipient 3 C=US;A=SILVER;CN=OUTER to peer SILVER-1"),
                 ("GOLD-1", "sent", "recipient 3 C=US;A=SILVER;CN=OUTER to SILVER-1"),
                 ("SILVER-1", "expanded", "recipient 3 C=US;A=SILVER;CN=OUTER"),
                 ("SILVER-1", "made", f"copy for {MORSE}, C=US;A=SILVER;S=HOPPER"),
                 ("SILVER-1", "delivered", f"recipient 1 {MORSE} mailbox morse")):
        if line not in found:
            raise Wrong(f"mta-trace has no {line}:\n" + "\n".join(map(str, found)))
    order = [(who, what) for who, what, _ in found]
    places = [order.index(it) for it in (("GOLD-1", "taken"), ("GOLD-1", "routed"), ("SILVER-1", "taken"),
                                         ("SILVER-1", "delivered"))]
    want("the order", places, sorted(places))
    report = next(it for it in found if it[1] == "taken" and "report" in it[2])
    want("the report that came back", (report[0], "from peer SILVER-1" in report[2]), ("GOLD-1", True))
    want("another message", [it for it in found if "ANOTHER" in it[2]], [])
    want("by its own part", events("TRACED", gold, silver), found)
    from_logs(gold, silver, found)
    tool("mta-trace", "ABSENT", gold, silver, status=1)
    tool("mta-trace", "TRACED", f"{MADE}/nowhere", status=2)
    want("what waits", waiting(), ("GOLD-1", "pending", "recipient 1 C=FR;A=X;S=Y"))


def from_logs(gold, silver, found):
    """The same by logs, by entries of the journal, and by both with the spools."""
    for folder, name in ((gold, "gold.json"), (silver, "silver.json")):
        with open(f"{MADE}/{name}", "wb") as file:
            file.write(tool("mta-log", "--json", folder))
    logs = [f"{MADE}/gold.json", f"{MADE}/silver.json"]
    want("by logs", events("C=GB;A=GOLD/TRACED", *logs), found)
    with open(logs[0], encoding="utf-8") as file, open(f"{MADE}/entries.json", "w", encoding="utf-8") as other:
        for line in file:
            other.write(json.dumps({"MESSAGE": "x", "MTA_JSON": line}) + "\n")
        other.write('{"MESSAGE": "cut o')
    want("by entries", events("C=GB;A=GOLD/TRACED", f"{MADE}/entries.json", logs[1]), found)
    want("by all of it", events("C=GB;A=GOLD/TRACED", *logs, gold, silver), found)
    objects = [json.loads(it) for it in tool("mta-trace", "--json", "TRACED", gold, silver).decode().splitlines()]
    want("as objects", [(it["agent"], it["event"]) for it in objects], [it[:2] for it in found])


def waiting():
    folder = agent("trace-waits", *GOLD)
    mta(folder, "submit", octets=message(BELL, "C=FR;A=X;S=Y", "WAITS"))
    return events("WAITS", folder)[-1]


def try_trace_snapshot():
    """Of what a snapshot has: the moments at which a message came and was sent, and what became of the recipients."""
    folder = agent("trace-snapshot", *GOLD)
    bodies, now = heavy([f"S{at}" for at in range(8)], 1)
    write_spool(folder, record(1, tables_of(folder)), *bodies, *sent_steps(1, range(1, 9), now))
    shutil.copytree(folder, f"{folder}-whole")
    mta(folder, "spool")
    if os.path.getsize(f"{folder}/mta.spool") > 100_000:
        raise Wrong("the spool did not shrink")
    line = f"recipient 1 {MORSE} to SILVER-1"
    want("of the snapshot", events("S3", folder),
         [("GOLD-1", "taken", f"submitted from {BELL} to {MORSE}"), ("GOLD-1", "sent", line)])
    os.makedirs(f"{folder}-archive")
    shutil.copy(f"{folder}-whole/mta.spool", f"{folder}-archive/20200101T000000Z.spool")
    want("of the archive beside it", [it[1] for it in events("S3", folder)], ["taken", "routed", "sent"])


# ---- check-mta


def try_watched():
    """What waits by peer, counts since the beginning, the clock, the disk, and words that it does not know."""
    folder = agent("watched", *GOLD)
    mta(folder, "submit", octets=message(BELL, "C=FR;A=X;S=Y", "C=FR;A=X;S=Z", MORSE, WATT, "WATCHED-1"))
    mta(folder, "submit", octets=sample("report-delivery.ber"))
    said = tool("check-mta", folder).decode()
    for words in ("3 pending", "2 for NOBODY since ", "1 for SILVER-1 since "):
        if words not in said:
            raise Wrong(f"check-mta has no {words!r}: {said}")
    metrics = tool("check-mta", "--metrics", "-", folder).decode()
    for name, value in (("peer_pending_recipients", 2), ("taken_total", 2), ("delivered_total", 2), ("sent_total", 0),
                        ("opened_lanes_total", 0)):
        labels = ',peer="NOBODY"' if name.startswith("peer_") else ""
        if f'mta_{name}{{agent="watched"{labels}}} {value}\n' not in metrics:
            raise Wrong(f"{name} is not {value} in\n{metrics}")
    for words in (["--bad"], [], [folder, "--port", "x"], [folder, "--metrics", f"{MADE}/nowhere/file"]):
        want("an unknown status", tool("check-mta", *words, status=3)[:12], b"MTA UNKNOWN:")
    tool("check-mta", "--warn-free", "1000000000", folder, status=1)
    want("a full disk", b"MB of the disk are free" in tool("check-mta", "--crit-free", "1000000000", folder, status=2),
         True)
    of_future()
    of_dashboard()


def of_future():
    """A last step in the future is told, and what waits is not taken for deferred."""
    folder, now = agent("future", *GOLD), now_of_spool() + FUTURE
    apdus = [message(BELL, "C=FR;A=X;S=Y", "F1"), message("--deferred", "491231000000Z", BELL, WATT, "F2")]
    write_spool(folder, record(1, tables_of(folder)), *(record(2, now, it) for it in apdus))
    said = tool("check-mta", folder, status=2).decode()
    if not said.startswith("MTA CRITICAL: 1 pending") or "in the future" not in said or "1 deferred" not in said:
        raise Wrong(f"check-mta of a clock that was wrong: {said}")


def of_dashboard():
    """Each metric that the dashboard asks for is one that check-mta writes."""
    with open(f"{CONTRIB}/grafana/mta.json", encoding="utf-8") as file:
        asked = set(re.findall(r"\bmta_\w+(?=\{)", " ".join(
            target["expr"] for panel in json.load(file)["panels"] for target in panel["targets"])))
    folder, port = agent("shown", *GOLD), a_port()
    mta(folder, "submit", octets=message(BELL, MORSE, "SHOWN"))
    with serving(folder, f"in:{port}"):
        listens(folder)
        text = tool("check-mta", "--stations", "--port", str(port), "--metrics", "-", folder).decode()
    written = set(re.findall(r"^(mta_\w+)\{", text, re.M))
    if not asked or asked - written:
        raise Wrong(f"the dashboard asks for {asked - written}, which check-mta does not write")
    typed = re.findall(r"^# TYPE (\w+) ", text, re.M)
    want("a type for each metric, once", (sorted(typed), len(typed)), (sorted(written), len(written)))


def try_dead():
    """An agent that was killed, one whose spool another process has, and callers whom nobody accepts."""
    folder, port = agent("dead", *GOLD), a_port()
    with serving(folder, f"in:{port}"):
        listens(folder)
        tool("check-mta", "--stations", folder)
    said = tool("check-mta", "--stations", folder, status=2).decode()
    if "no process has the spool" not in said and "is gone" not in said:
        raise Wrong(f"check-mta of an agent that was killed: {said}")
    with socket.create_server(("127.0.0.1", 0)) as deaf:
        port = deaf.getsockname()[1]
        tool("check-mta", "--port", str(port), folder)
        with socket.create_connection(("127.0.0.1", port)):
            said = tool("check-mta", "--port", str(port), "--look", "0.2", folder, status=2).decode()
            # where one is being served, others may wait
            taken, _ = deaf.accept()
            with taken, socket.create_connection(("127.0.0.1", port)):
                tool("check-mta", "--port", str(port), "--look", "0.2", folder)
    if f"1 callers of port {port} wait, and nobody accepts them" not in said:
        raise Wrong(f"check-mta of a station that accepts nobody: {said}")


NOBODY = 4999999  # above every number that a process has

# lines of mta.stations, and what is said of each
LINES = (
    ("station 1 in 10001 since 100 waiting 0 dropped 0 at 0 sessions 1 at 90 peer - at 0 error 0 at 0", None),
    ("station 1 in 10001 since 100 waiting 0 dropped 0 at 0 sessions 1 at 90 peer 192.0.2.7:4 at 90 error 0 at 0"
     "  process 4999999 ended - at 0", None),
    ("station 2 in 10001 since 0 waiting 0 dropped 0 at 0 sessions 0 at 0 peer - at 0 error 98 at 5 Address already in"
     " use (os error 98) process 4999999 ended - at 0", "does not listen, at 5: Address already in use (os error 98)"),
    ("station 2 in 10001 since 0 waiting 0 dropped 0 at 0 sessions 9 at 5 peer - at 0 error 0 at 0  process 4999999"
     " ended served at 6", None),
    ("station 2 in 10001 since 0 waiting 0 dropped 0 at 0 sessions 9 at 5 peer - at 0 error 5 at 6 Input/output error"
     " process 4999999 ended refused at 6", "has ended (refused), at 6"),
    ("station 3 out gold.example:102 since 0 waiting 0 dropped 0 at 0 sessions 1 at 5 peer 1.2.3.4:102 at 5 error 111"
     " at 9 Connection refused process 4999999 ended given-up at 9", "has ended (given-up), at 9"),
    ("station 3 out gold.example:102 since 0 waiting 0 dropped 0 at 0 sessions 1 at 5 peer 1.2.3.4:102 at 5 error 111"
     " at 9 Connection refused", "is not reached, at 9: Connection refused"),
)


def try_lines():
    """Each form of a station's line, of this program and of older ones."""
    for line, wanted in LINES:
        it = stations.station_of(line.ljust(511))
        said = list(stations.not_well([it], 1000))
        want(line, said, [f"{it.title()} {wanted}"] if wanted else [])
        want("its process", it.process, NOBODY if " process " in line else 0)
    want("another line", [stations.station_of(it) for it in ("", "\0" * 511, "station 1 in 1")], [None] * 3)


# ---- the page


class Page(html.parser.HTMLParser):
    """What a page has: its words, and whether it asks for anything from elsewhere."""

    def __init__(self, text):
        super().__init__()
        self.words, self.asks, self.open = [], [], []
        self.feed(text)

    def handle_starttag(self, tag, attributes):
        if tag in ("script", "link", "img", "iframe", "object") or {"src", "href"} & {it for it, _ in attributes}:
            self.asks.append(tag)
        if tag not in ("meta", "line", "polyline"):
            self.open.append(tag)

    def handle_startendtag(self, tag, attributes):
        if {"src", "href"} & {it for it, _ in attributes}:
            self.asks.append(tag)

    def handle_endtag(self, tag):
        want("what is closed", tag, self.open.pop())

    def handle_data(self, data):
        self.words.append(data)


def try_page():
    """The page has what waits by peer, the stations and the last hour, is whole, and asks for nothing."""
    folder, port = agent("page", *GOLD), a_port()
    mta(folder, "submit", octets=message(BELL, "C=FR;A=X;S=Y", "C=FR;A=X;S=Z", MORSE, "PAGE-1"))
    mta(folder, "submit", octets=message("--deferred", "491231000000Z", BELL, WATT, "PAGE-2"))
    with serving(folder, f"in:{port}"):
        listens(folder)
        text = tool("mta-look", "--html", folder).decode()
    page = Page(text)
    want("what it asks for, and what is left open", (page.asks, page.open), ([], []))
    words = "|".join(it.strip() for it in page.words if it.strip())
    for wanted in ("NOBODY|2|", "SILVER-1|1|", f"in {port}|listens|0|0|", "C=GB;A=GOLD/PAGE-1|C=FR;A=X;S=Y",
                   "taken 2", "its stations are well", "C=GB;A=GOLD/PAGE-2"):
        if wanted not in words:
            raise Wrong(f"the page has no {wanted!r}: {words}")
    tool("mta-look", "--html", folder, "read", "bell", status=2)
    with open(f"{MADE}/page.html", "w", encoding="utf-8") as file:
        file.write(text)
    by_browser(f"{MADE}/page.html")


def by_browser(path):
    """A browser without a screen draws the page: the picture has its size, and more than one colour."""
    browser = next((it for it in ("chromium", "chromium-browser", "google-chrome") if shutil.which(it)), None)
    if browser is None:
        print("skipped: no headless browser is on the PATH")
        return
    picture = f"{MADE}/page.png"
    words = [browser, "--headless", "--no-sandbox", "--disable-gpu", f"--user-data-dir={MADE}/browser",
             f"--screenshot={picture}", "--window-size=900,1200", f"file://{os.path.abspath(path)}"]
    ran(words, status=None, timeout=300)
    if not os.path.exists(picture):
        print(f"skipped: {browser} draws nothing here")
        return
    with open(picture, "rb") as file:
        octets = file.read()
    size = tuple(int.from_bytes(octets[at:at + 4], "big") for at in (16, 20))
    want("the picture", (octets[:8], size), (b"\x89PNG\r\n\x1a\n", (900, 1200)))
    if len(octets) < 20_000:
        raise Wrong(f"the picture has {len(octets)} octets, so little is drawn")


def main():
    tools = (("mta-box", try_box), ("mta-log over what becomes of a spool", try_going_on),
             ("mta-log that is killed", try_kills), ("refused calls", try_refused), ("mta-archive", try_archive),
             ("mta-trace", try_trace), ("mta-trace of a snapshot", try_trace_snapshot), ("check-mta", try_watched),
             ("check-mta of the dead", try_dead), ("lines of stations", try_lines), ("mta-look --html", try_page))
    with ThreadPoolExecutor(AT_ONCE) as pool:
        for job in [pool.submit(tried, *it) for it in tools if not sys.argv[4:] or it[0] in sys.argv[4:]]:
            job.result()


if __name__ == "__main__":
    try:
        main()
    except Wrong as why:
        print(why)
        sys.exit(1)
