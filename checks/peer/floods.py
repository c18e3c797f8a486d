#!/usr/bin/env python3
"""Connections that hold, use up or end a station, and true peers beside them.

floods.py [--seconds N] MTA FOLDER [NAME..]: N is how long the flood `sixteen` goes on.
"""
import functools
import os
import resource
import select
import signal
import socket
import statistics
import subprocess
import sys
import threading
import time

import apdu
import crowd
from agent import Agent, connect, free_port, message
from initiator import Initiator
from link import Link
from pairs import Wrong
from real import OURS, TABLES, THEIRS, Silver, values
from record import Record
from responder import Responder
from together import all_at_once
from units import LONGEST, PROTOCOL, Abort, Start, write
from station_lines import stations

FLOODS = {}
BY_NAME = {}  # those that are run only where they are named
PLACES = 64  # connections that wait at a station before they have brought a unit
OPENING = 60  # seconds until one of them is dropped
MUCH = 8192  # octets of a first unit that are as good as all of it
SILENCE = 600  # seconds in which a link has to give something
WATCHED = 7  # minutes for which a peer that closes at once is watched
CALM = 5  # minutes after which it is called fewer than three times in each
SECONDS = 40  # of the flood of sixteen stations
ALONE = ("silent-beside", "short-of-files", "sixteen")  # they compare times
QUIET = ("balancer",)  # it costs nothing, and takes long
STATIONS = 16  # the most of a process
FILES = 1024  # the files that a process may mostly open
CROWDED = 70  # silent connections at each of sixteen stations, and one more each second
HURRIES = 2  # seconds in which a bind is quick enough, however busy the machine is
DRIP = 2  # octets a second


def flood(does):
    FLOODS[does.__name__.replace("_", "-")] = does
    return does


def long_flood(does):
    BY_NAME[does.__name__.replace("_", "-")] = does
    return does


def until(what, seconds, why):
    """What it answers, once it answers something."""
    end = time.monotonic() + seconds
    while time.monotonic() < end:
        try:
            found = what()
        except FileNotFoundError:
            found = None
        if found:
            return found
        time.sleep(0.05)
    raise Wrong(f"not within {seconds} seconds: {why}")


def served(mta, folder, *words, under=()):
    agent = Agent(mta, folder, TABLES.format(mode="twa"))
    agent.serve(*words, under=under)
    return agent


def bind_time(silver, connection):
    """One session of the peer, which has to close; the seconds from its first octet to the answer."""
    times = []
    link = Link(connection, silver.lines.append)
    link.tap = lambda is_put, octets: times.append(time.monotonic())
    end = Initiator(link, Record(silver.store), values("twa")).run()
    if end != "closed":
        raise silver.wrong(f"the session of a true peer ended {end}")
    return times[1] - times[0]


def silent_to(port, count):
    return [connect(port) for _ in range(count)]


@flood
def silent_beside(mta, folder):
    """63 silent connections wait beside each bind: at most 1.5 times as long as alone. The lower quartiles of a hundred
    each, by turns, are compared, since a bind has four syncs and the host other work."""
    port, silver = free_port(), Silver()
    agent = served(mta, folder, "1000000", f"in:{port}")
    bind_time(silver, connect(port))
    alone, beside = [], []
    for _ in range(25):
        alone += [bind_time(silver, connect(port)) for _ in range(4)]
        silent = silent_to(port, PLACES - 1)
        until(lambda: int(stations(agent)[0]["waiting"]) == PLACES - 1, 10, "63 wait")
        beside += [bind_time(silver, connect(port)) for _ in range(4)]
        for it in silent:
            it.close()
        until(lambda: int(stations(agent)[0]["waiting"]) == 0, 10, "none waits")
    agent.kill()
    before, after = (statistics.quantiles(it)[0] * 1000 for it in (alone, beside))
    print(f"a bind takes {before:.2f} ms alone, and {after:.2f} ms beside 63 silent connections: {after / before:.2f}",
          flush=True)
    if after > 1.5 * before:
        raise Wrong("more than 1.5 times as long")


def bind_times(silver, ports):
    """The seconds that a bind takes at each of these ports, in turn, up to one that takes too long."""
    took = []
    for port in ports:
        took.append(bind_time(silver, connect(port)))
        if took[-1] > OPENING / 2:
            raise Wrong(f"a bind takes {took[-1]:.0f} s")
        time.sleep(0.5)
    return took


def crowds(ports, kept, is_over):
    """One more silent connection at each port, once a second, until it is over."""
    while not is_over.wait(1):
        kept += [connect(it) for it in ports]


@flood
def short_of_files(mta, folder):
    """1,120 silent connections at sixteen stations, and sixteen more a second, where 1,024 files may be opened: a true
    peer's bind takes at most 1.5 times as long as alone, in the median."""
    most = resource.getrlimit(resource.RLIMIT_NOFILE)[1]
    if most < 4 * FILES:
        print("left out: so many connections cannot be opened here", flush=True)
        return
    resource.setrlimit(resource.RLIMIT_NOFILE, (most, most))
    ports, silver, kept, is_over = [free_port() for _ in range(STATIONS)], Silver(), [], threading.Event()
    agent = served(mta, folder, "1000000", *(f"in:{it}" for it in ports),
                   under=["sh", "-c", f'ulimit -n {FILES} && exec "$@"', "limited"])
    alone = [bind_time(silver, connect(port)) for port in ports for _ in range(2)]
    kept += [connect(port) for port in ports for _ in range(CROWDED)]
    crowding = threading.Thread(target=crowds, args=(ports, kept, is_over))
    crowding.start()
    try:
        beside = bind_times(silver, [*ports, *ports])
    finally:
        is_over.set()
        crowding.join()
    agent.kill()
    for it in kept:
        it.close()
    before, after = statistics.median(alone), statistics.median(beside)
    print(f"{len(kept)} silent connections at sixteen stations of {FILES} files: a bind takes {after * 1000:.1f} ms, "
          f"and {before * 1000:.1f} ms alone; {max(beside):.1f} s at most", flush=True)
    if after > max(1.5 * before, HURRIES):
        raise Wrong("more than 1.5 times as long")


@flood
def announced(mta, folder):
    """A first unit of the greatest length, of which 9,000 octets come at once and then two a second: the station is
    held for a minute, and no longer."""
    port, silver = free_port(), Silver()
    agent = served(mta, folder, "1000000", f"in:{port}")
    start, drip = time.monotonic(), connect(port)
    drip.sendall(LONGEST.to_bytes(4, "big") + b"\1" + bytes(MUCH + 800))
    until(lambda: stations(agent)[0]["sessions"] == "1", 10, "it is a session")
    true = threading.Thread(target=silver.session, args=(Initiator, connect(port), values("twa")))
    true.start()
    ended = None
    while true.is_alive():
        try:
            if not ended:
                drip.sendall(bytes(DRIP))
        except OSError:
            ended = time.monotonic() - start
        true.join(1)
    took = time.monotonic() - start
    agent.kill()
    print(f"2,097,157 octets are announced and two a second come: the connection ends after {ended or took:.0f} s, and "
          f"a true peer has been served after {took:.0f} s", flush=True)
    if not Record(silver.store).state.lanes[0].agreed or took > OPENING * 9 / 8 + 10:
        raise silver.wrong("a true peer is not served")


@flood
def silent(mta, folder):
    """100 silent connections, and a true peer behind them and among them. None is left after a minute."""
    port, silver = free_port(), Silver()
    agent = served(mta, folder, "1000000", f"in:{port}")
    kept = silent_to(port, 60)
    took = bind_time(silver, connect(port))
    kept += silent_to(port, 40)
    took = max(took, bind_time(silver, connect(port)))
    until(lambda: int(stations(agent)[0]["dropped"]) == 100, OPENING + 10, "all are dropped")
    found = stations(agent)[0]
    agent.kill()
    print(f"100 silent connections: a true peer's bind takes {took * 1000:.1f} ms; {found['dropped']} were dropped, "
          f"{found['sessions']} sessions", flush=True)
    if took > 5 or found["sessions"] != "2":
        raise Wrong(f"{found}")
    for it in kept:
        it.close()


@flood
def slow(mta, folder):
    """One octet of a long unit a second: it is dropped after a minute, and a true peer is served meanwhile."""
    port, silver = free_port(), Silver()
    agent = served(mta, folder, "1000000", f"in:{port}")
    drip, start, worst = connect(port), time.monotonic(), 0
    try:
        for octet in b"\0\x1f\xff\0\1" + bytes(2 * OPENING):
            drip.sendall(bytes((octet,)))
            worst = max(worst, bind_time(silver, connect(port)))
            time.sleep(1)
    except OSError:
        pass
    lasted = time.monotonic() - start
    found = stations(agent)[0]
    agent.kill()
    print(f"one octet a second: dropped after {lasted:.0f} s; a true peer's bind takes {worst * 1000:.1f} ms at most",
          flush=True)
    if worst > 5 or not OPENING - 2 < lasted < OPENING + 5 or found["dropped"] != "1":
        raise Wrong(f"{found}")


@flood
def openings(mta, folder):
    """What begins a session: 8,192 octets of a first unit, and no fewer, or four octets that no unit begins with."""
    port, silver = free_port(), Silver()
    agent = served(mta, folder, "1000000", f"in:{port}")
    kept = []
    for octets, sessions in ((b"\0\0\x80\0\1" + bytes(MUCH - 6), 0), (b"\0\x20\0\5", 0), (b"\0\x20\0\6", 1),
                             (b"\0\0\x80\0\1" + bytes(MUCH - 5), 2)):
        kept.append(connect(port))
        kept[-1].sendall(octets)
        time.sleep(1)
        found = stations(agent)[0]
        if int(found["sessions"]) != sessions:
            raise Wrong(f"after {octets[:5].hex()} and {len(octets)} octets: {found}")
    abort = kept[2].recv(100)
    if abort != write(Abort(PROTOCOL)):
        raise Wrong(f"a length of no unit is answered {abort.hex()}")
    kept[3].close()
    bind_time(silver, connect(port))
    agent.kill()
    print("8,192 octets of a unit, and a length of no unit, begin sessions; less does not", flush=True)


@flood
def limit(mta, folder):
    """A limit of open files that leaves none for a connection, put and taken away."""
    port, silver = free_port(), Silver()
    agent = served(mta, folder, "1000000", f"in:{port}")
    bind_time(silver, connect(port))
    until(lambda: int(stations(agent)[0]["sessions"]) == 1, 10, "a session")
    time.sleep(0.5)
    pid = agent.serving.pid
    was = resource.prlimit(pid, resource.RLIMIT_NOFILE)
    most = max(int(it) for it in os.listdir(f"/proc/{pid}/fd")) + 1
    resource.prlimit(pid, resource.RLIMIT_NOFILE, (most, was[1]))
    peer = connect(port)
    until(lambda: stations(agent)[0]["error"] == "24", 10, "an error is told")
    time.sleep(3)
    resource.prlimit(pid, resource.RLIMIT_NOFILE, was)
    start = time.monotonic()
    bind_time(silver, peer)
    took = time.monotonic() - start
    agent.kill()
    print(f"a limit of {most} open files: told, and the peer is served {took:.1f} s after it is taken away", flush=True)
    if took > 2:
        raise Wrong("too late")


@flood
def port_in_use(mta, folder):
    """A port that another has for 10 seconds."""
    silver = Silver()
    other = socket.create_server(("0.0.0.0", 0))
    port = other.getsockname()[1]
    agent = served(mta, folder, "1000000", f"in:{port}")
    found = until(lambda: [it for it in stations(agent) if it["error"] == "98"], 10, "an error is told")[0]
    if found["since"] != "0":
        raise Wrong(f"it listens: {found}")
    time.sleep(10)
    other.close()
    start = time.monotonic()
    bind_time(silver, connect(port))
    took = time.monotonic() - start
    found = stations(agent)[0]
    agent.kill()
    print(f"a port in use: told, and had {took:.1f} s after it is free", flush=True)
    if took > 2 or found["since"] == "0":
        raise Wrong(f"{found}")


@flood
def empty(mta, folder):
    """10,000 connections that are closed at once, against 20 sessions."""
    port, silver = free_port(), Silver()
    agent = served(mta, folder, "20", f"in:{port}")
    connect(port).close()

    def calls():
        for _ in range(1000):
            connect(port).close()

    start = time.monotonic()
    running = [threading.Thread(target=calls) for _ in range(10)]
    for it in running:
        it.start()
    worst = max(bind_time(silver, connect(port)) for _ in range(10))
    for it in running:
        it.join()
    took = time.monotonic() - start
    worst = max(worst, *(bind_time(silver, connect(port)) for _ in range(10)))
    told = agent.told()
    print(f"10,000 empty connections in {took:.1f} s: {told.strip()}; a true peer's bind takes {worst * 1000:.1f} ms "
          "at most", flush=True)
    if told != "station 1 sessions 20 closed 20\n":
        raise Wrong(told)


@flood
def waiting_process(mta, folder):
    """A second process in the folder takes no connections while it waits for the spool, and serves then."""
    first, second, silver = free_port(), free_port(), Silver()
    agent = served(mta, folder, "1000000", f"in:{first}")
    bind_time(silver, connect(first))
    waits = subprocess.Popen([mta, "serve", "1", f"in:{second}"], cwd=folder, stdout=subprocess.PIPE, text=True)
    time.sleep(2)
    try:
        socket.create_connection(("127.0.0.1", second)).close()
        raise Wrong("it takes a connection while it waits")
    except ConnectionRefusedError:
        pass
    if [it["place"] for it in stations(agent)] != [str(first)]:
        raise Wrong("it writes what its station does while it waits")
    agent.kill()
    bind_time(silver, connect(second))
    told, _ = waits.communicate(timeout=30)
    if told != "station 1 sessions 1 closed 1\n":
        raise Wrong(told)
    print("a second process takes no connection while it waits, and serves then", flush=True)


@flood
def balancer(mta, folder):
    """A peer that accepts and closes at once, for seven minutes: fewer than three sessions in each after the fifth."""
    agent = Agent(mta, folder, TABLES.format(mode="twa"))
    agent.submit(message(THEIRS, OURS, "G00001", apdu.content_of(2)))
    listener = socket.create_server(("127.0.0.1", 0))
    agent.serve("1000000", f"out:silver:127.0.0.1:{listener.getsockname()[1]}")
    start, times = time.monotonic(), []
    while (left := 60 * WATCHED - (time.monotonic() - start)) > 0:
        listener.settimeout(left)
        try:
            listener.accept()[0].close()
            times.append(time.monotonic() - start)
        except TimeoutError:
            break
    size = os.path.getsize(f"{agent.folder}/mta.spool")
    agent.kill()
    minutes = [sum(it // 60 == minute for it in times) for minute in range(WATCHED)]
    print(f"a peer that closes at once is called at {' '.join(f'{it:.0f}' for it in times)} s: {minutes} minute by "
          f"minute; the spool has {size} octets", flush=True)
    if max(minutes[CALM:]) >= 3 or not times:
        raise Wrong("too often, or not at all")


@flood
def both_families(mta, folder):
    """A port takes IPv6 and IPv4. Of a name with both kinds of address the one that answers is called."""
    port, silver = free_port(), Silver()
    agent = served(mta, f"{folder}-in", "1000000", f"in:{port}")
    bind_time(silver, connect(port))
    bind_time(silver, socket.create_connection(("::1", port)))
    peer = until(lambda: stations(agent)[0], 10, "a line")["peer"]
    agent.kill()
    if not peer.startswith("[::1]:"):
        raise Wrong(f"the second session was with {peer}")
    told = "a port takes IPv6 and IPv4"
    hosts = f"{folder}.hosts"
    with open(hosts, "w") as file:
        file.write("::1 both.example\n127.0.0.1 both.example\n")
    alone = ["unshare", "--mount", "sh", "-c", 'mount --bind "$0" /etc/hosts && exec "$@"', hosts]
    if subprocess.run([*alone, "true"], capture_output=True).returncode != 0:
        print(f"{told}; skipped: no name has both kinds of address here", flush=True)
        return
    for at, address in enumerate(("::1", "127.0.0.1")):
        family = socket.AF_INET6 if ":" in address else socket.AF_INET
        with socket.create_server((address, 0), family=family) as listener:
            listener.settimeout(30)
            agent = Agent(mta, f"{folder}-out{at}", TABLES.format(mode="twa"))
            agent.serve("1", f"out:silver:both.example:{listener.getsockname()[1]}", under=alone)
            end, _ = Silver().session(Responder, listener.accept()[0], values("twa"))
            if end != "closed" or agent.told() != "station 1 sessions 1 closed 1\n":
                raise Wrong(f"the session at {address} ended {end}")
    print(f"{told}; of a name with both the address that answers is called", flush=True)


@flood
def unwritable(mta, folder):
    """Where mta.stations cannot be written nothing else changes."""
    port, silver = free_port(), Silver()
    agent = Agent(mta, folder, TABLES.format(mode="twa"))
    os.mkdir(f"{folder}/mta.stations")
    agent.serve("1", f"in:{port}")
    bind_time(silver, connect(port))
    if agent.told() != "station 1 sessions 1 closed 1\n":
        raise Wrong("another line")
    print("a folder in the place of mta.stations changes nothing", flush=True)


def end_of(connection):
    """How a connection ends that brings nothing."""
    try:
        octets = connection.recv(100)
        return f"{octets}" if octets else "end"
    except ConnectionResetError:
        return "reset"


@flood
def stopped(mta, folder):
    """SIGTERM: the peer of a session and connections that wait see an end, calls are refused, and the agent that is
    there again recovers the session's lane."""
    port, silver = free_port(), Silver()
    agent = served(mta, folder, "1000000", f"in:{port}")
    link = Link(connect(port), silver.lines.append)
    session = Initiator(link, Record(silver.store), values("twa"))
    session.open()
    waits = connect(port)
    agent.serving.terminate()
    told, _ = agent.serving.communicate(timeout=10)
    ends = [end_of(it) for it in (link.connection, waits)]
    try:
        socket.create_connection(("127.0.0.1", port)).close()
        raise Wrong("calls are not refused")
    except ConnectionRefusedError:
        pass
    # one that was not accepted yet is reset
    if (agent.serving.returncode, told) != (-signal.SIGTERM, "") or ends != ["end", "reset"]:
        raise Wrong(f"status {agent.serving.returncode}, {told!r}, {ends}")
    agent.serve("1", f"in:{port}")
    bind_time(silver, connect(port))
    if agent.told() != "station 1 sessions 1 closed 1\n":
        raise Wrong("the lane is not recovered")
    print("a process that is stopped: its connections end, calls are refused, and the next one recovers", flush=True)


@long_flood
def within(mta, folder):
    """Ten minutes: within a session a peer that is silent, and one that gives an octet a second of a unit, have failed
    after 600 seconds. A timer of the system may be an eighth late."""
    ports, silvers = (free_port(), free_port()), (Silver(), Silver())
    agent = served(mta, folder, "1000000", *(f"in:{it}" for it in ports))
    links = []
    for at, (port, silver) in enumerate(zip(ports, silvers)):
        links.append(Link(connect(port), silver.lines.append))
        how = values("monologue", moment=f"50010100000{at}Z")
        Initiator(links[at], Record(silver.store), how).open()
    start, ended, unit = time.monotonic(), {}, b"\0\0\4\5\5\4\x82\4\0" + bytes(1024)
    links[1].put(Start(1))
    while len(ended) < 2 and time.monotonic() < start + 2 * SILENCE + 60:
        for at, it in enumerate(links):
            ready, _, _ = select.select([it.connection], [], [], 0)
            if ready and at not in ended:
                ended[at] = time.monotonic() - start
        if 1 not in ended:
            links[1].connection.sendall(unit[:1])
            unit = unit[1:]
        time.sleep(1)
    agent.kill()
    print(f"within a session: one that is silent has failed after {ended.get(0, 0):.0f} s, one that gives an octet a "
          f"second after {ended.get(1, 0):.0f} s", flush=True)
    if not all(SILENCE - 5 < ended.get(at, 0) < SILENCE * 9 / 8 + 5 for at in (0, 1)):
        raise Wrong("not after 600 seconds")


def main():
    words, seconds = sys.argv[1:], SECONDS
    if words[0] == "--seconds":
        seconds = int(words[1])
        words = words[2:]
    mta, folder, *names = words
    FLOODS["sixteen"] = functools.partial(crowd.sixteen, seconds=seconds)
    FLOODS["random-octets"] = crowd.random_octets
    floods = FLOODS | BY_NAME
    unknown = sorted(set(names) - set(floods))
    if unknown:
        print(f"no flood is named {', '.join(unknown)}; those there are: {' '.join(floods)}")
        return 2
    names = names or list(FLOODS)
    jobs = [(name, functools.partial(floods[name], mta, f"{folder}/{name}")) for name in names]
    wrong = []

    def but_quiet():
        for one in ALONE:
            wrong.extend(all_at_once(job for job in jobs if job[0] == one))
        wrong.extend(all_at_once(job for job in jobs if job[0] not in ALONE + QUIET))

    wrong += all_at_once([*(job for job in jobs if job[0] in QUIET), ("others", but_quiet)])
    Agent.end()
    print(*wrong, sep="\n" if wrong else "", end="\n" if wrong else "")
    return 1 if wrong else 0


if __name__ == "__main__":
    sys.exit(main())
