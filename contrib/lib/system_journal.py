"""Entries of the system's journal, with fields, by its own protocol: a datagram an entry, or a file handed over where
that would be too long."""
import array
import errno
import fcntl
import json
import os
import socket
import subprocess

SOCKET = "/run/systemd/journal/socket"
SEALS = fcntl.F_SEAL_SHRINK | fcntl.F_SEAL_GROW | fcntl.F_SEAL_WRITE | fcntl.F_SEAL_SEAL
INFO, WARNING = 6, 4  # priorities
LOOKED_AT = 4096  # entries that are looked at for what was told


def field(name, value):
    """A field as the protocol has it: on a line, or behind its length where it has a line feed."""
    octets = str(value).encode("utf-8", errors="replace")
    if b"\n" in octets:
        return name.encode("ascii") + b"\n" + len(octets).to_bytes(8, "little") + octets + b"\n"
    return name.encode("ascii") + b"=" + octets + b"\n"


def entry(fields):
    """The octets of an entry: a value that is a list is a field for each of its parts."""
    made = []
    for name, value in fields.items():
        made += [field(name, it) for it in (value if isinstance(value, list) else [value]) if it is not None]
    return b"".join(made)


class SystemJournal:
    """The journal of this host. `path` is its socket."""

    def __init__(self, path=SOCKET):
        self.path = path
        self.socket = socket.socket(socket.AF_UNIX, socket.SOCK_DGRAM)
        try:
            self.socket.connect(path)
        except OSError as why:
            raise OSError(why.errno, f"{why.strerror}: there is no journal of systemd", path) from None

    def put(self, fields):
        octets = entry(fields)
        try:
            self.send(octets)
        except OSError as why:
            if why.errno not in (errno.EMSGSIZE, errno.ENOBUFS):
                raise
            self.hand_over(octets)

    def send(self, octets):
        """Sends a datagram; once more where the journal was begun anew meanwhile."""
        try:
            self.socket.send(octets)
        except (ConnectionRefusedError, ConnectionResetError):
            self.socket.connect(self.path)
            self.socket.send(octets)

    def hand_over(self, octets):
        """Gives the journal a sealed file in memory that has the entry."""
        it = os.memfd_create("mta-log", os.MFD_ALLOW_SEALING | os.MFD_CLOEXEC)
        try:
            left = memoryview(octets)
            while left:
                left = left[os.write(it, left):]
            fcntl.fcntl(it, fcntl.F_ADD_SEALS, SEALS)
            numbers = array.array("i", [it])
            self.socket.sendmsg([b""], [(socket.SOL_SOCKET, socket.SCM_RIGHTS, numbers)])
        finally:
            os.close(it)


def last_entries(fields, wanted):
    """Of the last entries with these fields the values of one field; None where the journal cannot be read."""
    words = ["journalctl", "--no-pager", "--quiet", "--output=json", f"--output-fields={wanted}", "--reverse",
             f"--lines={LOOKED_AT}", *(f"{key}={value}" for key, value in fields.items())]
    subprocess.run(["journalctl", "--sync"], stdin=subprocess.DEVNULL, stdout=subprocess.DEVNULL,
                   stderr=subprocess.DEVNULL, check=False)
    try:
        ran = subprocess.run(words, stdin=subprocess.DEVNULL, stdout=subprocess.PIPE, stderr=subprocess.DEVNULL,
                             check=False)
    except OSError:
        return None
    if ran.returncode:
        return None
    return {json.loads(line).get(wanted) for line in ran.stdout.splitlines()}
