"""One wrong unit of each kind, put to a peer of our own: each is answered as docs/PROTOCOL.md says."""
import threading

import apdu
import hostile
from initiator import Initiator
from link import Link
from pairs import Wrong, connected
from record import Memory, Record
from responder import Responder
from session import Values
from units import MONOLOGUE, TWO_WAY

LIMIT = 5_000  # units of a session here


class Opposite:
    """Connections whose other end is a peer of ours, in a thread, over one record."""

    def __init__(self, command, mode, size):
        self.role, self.mode, self.store = (Responder if command == "call" else Initiator), mode, Memory()
        message = apdu.message("C=GB;A=GOLD;S=WATT", "C=GB;A=SILVER;S=BELL", b"M1", bytes(size))
        Record(self.store).step("queue", message)
        if command == "call" and mode == MONOLOGUE:
            self.store = Memory()
        self.running, self.lines = [], []

    def next(self):
        ours, theirs = connected()
        values = Values(b"gold", b"silver", b"theirs", b"ours", self.mode, 1, 3, LIMIT)
        link = Link(theirs, self.lines.append)
        running = threading.Thread(target=lambda: self.role(link, Record(self.store), values).run(), daemon=True)
        running.start()
        self.running.append(running)
        return ours

    def done(self):
        for running in self.running:
            running.join()
        self.running = []


def one(command, kind, mode):
    """Runs one kind; answers whether it was run, not left out."""
    opposite, lines = Opposite(command, mode, 5_000), []
    values = Values(b"silver", b"gold", b"ours", b"theirs", mode, 1, 3, LIMIT)
    if hostile.run(command, kind, opposite, values, lines.append, stations=2):
        told = "\n".join([f"  hostile: {it}" for it in lines] + [f"  the other end: {it}" for it in opposite.lines])
        raise Wrong(f"{command} {kind} was not answered as it has to be\n{told}")
    opposite.done()
    return "left out" not in lines[0]


def run():
    count = 0
    for command in ("call", "listen"):
        for mode in (MONOLOGUE, TWO_WAY):
            count += sum(one(command, kind, mode) for kind in hostile.kinds(command))
    print(f"{count} wrong units: each was answered as it has to be", flush=True)
