"""What the figures of checks/speed share: the programs, messages, spools, runs that are timed, and rows of figures.

A figure is taken several times; the best counts, and the spread is the worst as a multiple of the best. Where
SPEED_OUT names a folder, what was found of everything that grows is left there, a line a place, as
`checks/speed.sh curves` draws it.
"""
import os
import shutil
import signal
import socket
import subprocess
import sys
import time

HERE = os.path.dirname(os.path.abspath(__file__))
# programs, asn1c's decoder and a folder, as checks/speed.sh hands them over; what a figure does not need is empty
MTA, BENCH, AUDIT, FOLLOW, REHEARSE, STORE, DECODER, FOLDER = (
    os.environ.get(it, "") for it in ("MTA", "BENCH", "AUDIT", "FOLLOW", "REHEARSE", "STORE", "DECODER", "FOLDER"))
# seconds from 1950, from which moments of a spool count, to 1970
EPOCH = 631_152_000
# what was begun is ended also where the script is stopped
signal.signal(signal.SIGTERM, lambda *_: sys.exit(143))


def words(*usual):
    """The words that were given, or else the usual ones. Numbers may stand in one word."""
    return [it for text in sys.argv[1:] for it in text.split()] or [str(it) for it in usual]


def numbers(*usual):
    return [int(it) for it in words(*usual)]


def needs(tool):
    """Ends the script where a tool is missing."""
    if shutil.which(tool) is None:
        print(f"skipped: {tool} is not on the PATH")
        sys.exit(0)


def number(value, octets):
    return value.to_bytes(octets, "big")


def counted(octets):
    return number(len(octets), 4) + octets


def element(tag, octets):
    """An element of BER, in definite form."""
    size = len(octets)
    length = number(size, (size.bit_length() + 7) // 8)
    return bytes([tag]) + (bytes([size]) if size < 128 else bytes([0x80 | len(length)]) + length) + octets


def name(domain, surname):
    """The O/R name C=GB;A=domain;S=surname."""
    standard = element(0x61, element(0x13, b"GB")) + element(0x62, element(0x13, domain))
    return element(0x60, element(0x30, standard + element(0xA5, element(0x80, surname))))


def message(size, domain=b"GOLD", recipients=1, origin=b"GOLD"):
    """A message from Bell of a domain to Watt of another, with a content of so many octets."""
    from_there = element(0x61, element(0x13, b"GB")) + element(0x62, element(0x13, origin))
    identifier = element(0x64, element(0x63, from_there) + element(0x16, b"M0001"))
    fields = name(origin, b"BELL") + identifier + element(0x46, b"\x16") + element(0x69, b"")
    recipient = element(0x31, name(domain, b"WATT") + element(0x80, b"\x01") + element(0x81, b"\x00\xa8"))
    envelope = element(0x31, fields + element(0xA2, recipient * recipients))
    return element(0xA0, envelope + element(0x04, b"H" * size))


TABLES = b"""domain C=GB;A=GOLD
name GOLD-1
peer HUB secret-out secret-in monologue 4 3
mailbox watt C=GB;A=GOLD;S=WATT
route C=GB;A=ACME peer HUB
"""


def record(body):
    return b"\x01" + counted(body)


def listed(octets):
    return octets if isinstance(octets, list) else [octets]


def write_spool(folder, tables, items, octets, is_delivered=False):
    """A spool in which the octets were accepted so many times in the last hour, and delivered where that is said.
    Several octets, in a list, are taken in turn."""
    os.makedirs(folder, exist_ok=True)
    with open(f"{folder}/mta.tables", "wb") as file:
        file.write(tables)
    since, apdus = int(time.time()) + EPOCH - 3600, [counted(it) for it in listed(octets)]
    with open(f"{folder}/mta.spool", "wb") as spool:
        spool.write(b"MTASPL01" + record(b"\x19" + number(2, 4)) + record(b"\x01" + counted(tables)))
        for first in range(1, items + 1, 1000):
            rows = []
            for item in range(first, min(first + 1000, items + 1)):
                moment = number(since + item * 3000 // items, 8)
                rows.append(record(b"\x02" + moment + apdus[item % len(apdus)]))
                if is_delivered:
                    rows.append(record(b"\x03" + number(item, 4) + number(1, 4) + moment))
            spool.write(b"".join(rows))
        spool.write(b"\x00")


def ran(command, cwd=None, given="/dev/null", statuses=(0,), env=None):
    """The seconds by the clock, and what the process used."""
    how = {"cwd": cwd, "env": env, "stdout": subprocess.DEVNULL, "stderr": subprocess.DEVNULL}
    with open(given, "rb") as octets:
        start = time.monotonic()
        child = subprocess.Popen(command, stdin=octets, **how)
        _, status, used = os.wait4(child.pid, 0)
        took = time.monotonic() - start
    if os.waitstatus_to_exitcode(status) not in statuses:
        sys.exit(f"{command} ended with {status}")
    return took, used


def run(command, **how):
    """The seconds by the clock, and those of processors."""
    took, used = ran(command, **how)
    return took, used.ru_utime + used.ru_stime


def processor_seconds(command, times=3, **how):
    """The best of several runs in seconds of processors, and the spread."""
    return of_several([run(command, **how)[1] for _ in range(times)])


def user_seconds(*parts, runs=1):
    """Of so many runs of a part of mta_bench the user time, the least of seven such sums, and the spread."""
    command = [BENCH, *(str(it) for it in parts)]
    return of_several([sum(ran(command)[1].ru_utime for _ in range(runs)) for _ in range(7)])


def prints(wanted, *parts):
    """Ends the script where a part of mta_bench prints something else."""
    command = [BENCH, *(str(it) for it in parts)]
    if subprocess.run(command, capture_output=True, text=True, check=False).stdout.strip() != wanted:
        sys.exit(f"something else was printed by: {' '.join(command)}")


def bad_if(is_so, what):
    """Ends the script with status 1 where a bound is passed."""
    if is_so:
        sys.exit(what)


def of_several(found):
    return max(min(found), 1e-6), max(found) / max(min(found), 1e-6)


def in_turn(ways, times=3):
    """Each of several ways in turn, so often: of each the best and the spread."""
    found = [[way() for way in ways] for _ in range(times)]
    return [of_several(list(it)) for it in zip(*found)]


def fresh(folder):
    shutil.rmtree(folder, ignore_errors=True)
    os.makedirs(folder)
    return folder


def free_port():
    with socket.create_server(("127.0.0.1", 0)) as server:
        return server.getsockname()[1]


def wait_for_port(port):
    """Waits until somebody listens at the port, without calling there."""
    wanted = f"{port:04X}"
    for _ in range(10_000):
        each = []
        for sockets in ("/proc/net/tcp", "/proc/net/tcp6"):
            if os.path.exists(sockets):
                with open(sockets, encoding="utf-8") as file:
                    each += [line.split() for line in file][1:]
        if any(it[1].endswith(f":{wanted}") and it[3] == "0A" for it in each):
            return
        time.sleep(0.001)
    sys.exit(f"nobody listens at port {port}")


def idle_memory(process):
    """The most octets that a process has held by the time that it does nothing any more."""
    before, quiet = None, 0
    while quiet < 5:
        time.sleep(0.1)
        with open(f"/proc/{process.pid}/stat", encoding="utf-8") as file:
            used = file.read().rpartition(")")[2].split()[11:13]
        quiet = quiet + 1 if used == before else 0
        before = used
    with open(f"/proc/{process.pid}/status", encoding="utf-8") as file:
        return next(int(line.split()[1]) * 1024 for line in file if line.startswith("VmHWM"))


def rows(file, found):
    """Leaves lines of numbers for a picture, where a folder is named for them."""
    if os.environ.get("SPEED_OUT"):
        with open(f"{os.environ['SPEED_OUT']}/{file}.dat", "w", encoding="utf-8") as out:
            out.writelines(" ".join(f"{it:.6g}" for it in row) + "\n" for row in found)


def machine(folder="/"):
    """The machine and what it does, in one line."""
    kind = subprocess.run(["df", "--output=fstype", folder], capture_output=True, text=True).stdout.split()[-1]
    print(f"processors: {os.cpu_count()}, load before: {os.getloadavg()[0]:.1f}, files on {kind}", flush=True)
