#!/usr/bin/env python3
"""A station that calls, after what may pass: out.py MTA LIBRARY FOLDER.

LIBRARY is checks/calls.c, to be preloaded. The agent's clock is ten times as fast where it has to wait for minutes.
"""
import functools
import os
import resource
import select
import socket
import subprocess
import sys
import time

import apdu
from agent import Agent, free_port, message
from pairs import Wrong
from real import OURS, TABLES, THEIRS, Silver, values
from responder import Responder
from together import all_at_once

FASTER = 10  # times as fast as the clock is
CALLS = 12  # that reach nobody, one after another, until a station gives up where none of the process is called
LONGEST = 60  # seconds between two calls
ANSWER = 30  # seconds for an address that does not answer
SOON = 60  # seconds until a session comes, whatever the machine does
REFUSED = 150  # seconds, by the agent's clock, for which the peer refuses
SHORT = 5  # seconds without files
GOES_ON = "it is called again, and the message is there"
ENDS = f"a run of one station ends after {CALLS} calls"


def pauses():
    """The least seconds between calls that reach nobody."""
    return [min(1 << number, LONGEST) for number in range(CALLS - 1)]


class Caller:
    """An agent with a message for its peer, which it calls at a port, beside a station that is called or alone."""

    def __init__(self, mta, library, folder, is_alone, host="localhost", **how):
        self.agent, self.silver = Agent(mta, folder, TABLES.format(mode="twa")), Silver()
        self.folder, self.port = folder, free_port()
        self.agent.submit(message(THEIRS, OURS, "G00001", apdu.content_of(100)))
        names = {"LD_PRELOAD": library, "CALLS_TOLD": f"{folder}/told"}
        names |= {f"CALLS_{name.upper()}": str(value) for name, value in how.items()}
        under = ["env", *(f"{name}={value}" for name, value in names.items())]
        stations = [f"out:silver:{host}:{self.port}"] + ([] if is_alone else [f"in:{free_port()}"])
        self.agent.serve("1" if is_alone else "1000", *stations, under=under)

    def listens(self):
        listener = socket.create_server(("127.0.0.1", self.port))
        listener.settimeout(SOON)
        return listener

    def session(self, listener):
        """The next session comes, and closes."""
        try:
            connection = listener.accept()[0]
        except TimeoutError:
            raise Wrong(f"no call within {SOON} seconds") from None
        end, _ = self.silver.session(Responder, connection, values("twa"))
        if end != "closed":
            raise self.silver.wrong(f"a session ended {end}")

    def is_sent(self):
        if len(self.silver.received()) != 1:
            raise self.silver.wrong("the message has not come")

    def says(self, words):
        """Whether the line of the station that calls has these words."""
        with open(f"{self.folder}/mta.stations") as file:
            return words in file.readline()

    def calls(self):
        """The moments of the calls."""
        with open(f"{self.folder}/told") as file:
            return [int(it) for it in file]


def passes(mta, library, folder, is_alone, **how):
    """A name that is not found, or a network that is not reached, once."""
    caller = Caller(mta, library, folder, is_alone, **how)
    with caller.listens() as listener:
        caller.session(listener)
    caller.is_sent()
    if not is_alone:
        caller.agent.kill()
    elif caller.agent.told() != "station 1 sessions 1 closed 1\n":
        raise Wrong("a station alone ends in another way")


def refuses(mta, library, folder):
    """A peer that refuses for longer than a minute, and then is there."""
    caller = Caller(mta, library, folder, False, faster=FASTER)
    time.sleep(REFUSED / FASTER)
    if len(caller.calls()) >= CALLS:
        raise Wrong(f"calls at {caller.calls()}")
    with caller.listens() as listener:
        caller.session(listener)
        caller.session(listener)
    caller.is_sent()
    caller.agent.kill()


def gives_up(mta, library, folder, **how):
    """A station alone whose peer is never reached ends after its calls, and says so."""
    caller, began = Caller(mta, library, folder, True, faster=FASTER, **how), time.monotonic()
    most = (sum(pauses()) + CALLS * ANSWER) / FASTER + SOON
    try:
        told, _ = caller.agent.serving.communicate(timeout=most)
    except subprocess.TimeoutExpired:
        raise Wrong(f"a station alone has not ended after {most} seconds: calls at {caller.calls()}") from None
    calls = caller.calls()
    if (caller.agent.serving.returncode, told) != (0, "station 1 sessions 0 closed 0\n") or len(calls) != CALLS:
        raise Wrong(f"status {caller.agent.serving.returncode}, {told!r}, calls at {calls}")
    for before, after, pause in zip(calls, calls[1:], pauses()):
        # seconds are cut off
        if after - before < pause - 1:
            raise Wrong(f"calls at {calls}: a pause of {after - before} s, and not of {pause}")
    if time.monotonic() - began < sum(pauses()) / FASTER:
        raise Wrong("it ends too early")


def held(pid):
    """The descriptors that a process holds for half a second, at least."""
    found = set(range(1024))
    for _ in range(10):
        found &= {int(it) for it in os.listdir(f"/proc/{pid}/fd")}
        time.sleep(0.05)
    return found


def out_of_files(mta, library, folder):
    """No file can be opened for some calls."""
    caller = Caller(mta, library, folder, False, host="127.0.0.1")
    pid = caller.agent.serving.pid
    with caller.listens() as listener:
        caller.session(listener)
        caller.session(listener)  # nothing is left to send, so it rests for a second
        # as many as it holds between two sessions
        descriptors = held(pid)
        most = next(it for it in range(1024) if it not in descriptors)
        was = resource.prlimit(pid, resource.RLIMIT_NOFILE)
        resource.prlimit(pid, resource.RLIMIT_NOFILE, (most, was[1]))
        end = time.monotonic() + SOON
        while not caller.says(" error 24 "):
            if time.monotonic() > end:
                raise Wrong("mta.stations does not say that files were short")
            if select.select([listener], [], [], 0.1)[0]:
                caller.session(listener)
        time.sleep(SHORT)
        resource.prlimit(pid, resource.RLIMIT_NOFILE, was)
        caller.session(listener)
    caller.is_sent()
    caller.agent.kill()


def main():
    mta, library, folder = sys.argv[1:]
    called, alone = "beside a station that is called", "alone"
    ways = [("a name that is not found once, " + called, passes, False, {"unknown": 1}),
            ("a name that is not found once, " + alone, passes, True, {"unknown": 1}),
            ("a network that is not reached once, " + called, passes, False, {"unreached": 2}),
            ("a network that is not reached once, " + alone, passes, True, {"unreached": 2})]
    jobs = {told: functools.partial(does, mta, library, f"{folder}/{number}", is_alone, **how)
            for number, (told, does, is_alone, how) in enumerate(ways)}
    jobs["no file can be opened for some seconds, " + called] = functools.partial(out_of_files, mta, library,
                                                                                  f"{folder}/files")
    jobs[f"a peer that refuses for {REFUSED} seconds, {called}"] = functools.partial(refuses, mta, library,
                                                                                     f"{folder}/refuses")
    goes_on = list(jobs)
    jobs["a peer that refuses for good"] = functools.partial(gives_up, mta, library, f"{folder}/gone")
    jobs["a name that is never found"] = functools.partial(gives_up, mta, library, f"{folder}/unknown", unknown=1 << 30)
    wrong = all_at_once(jobs.items())
    Agent.end()
    if not wrong:
        for told in jobs:
            print(f"{told}: {GOES_ON if told in goes_on else ENDS}")
    print(*wrong, sep="\n", end="\n" if wrong else "")
    return 1 if wrong else 0


if __name__ == "__main__":
    sys.exit(main())
