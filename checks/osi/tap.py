"""A relay between two bridges: it passes octets on, writes them down, and breaks or stalls connections."""
import random
import socket
import threading
import time

PIECE = 4096
SHORT = 3000         # octets in which an association opens and a transfer begins


class Connection:
    """One connection through the relay, and what it passed on."""

    def __init__(self, tap, number, near, far):
        self.tap, self.number, self.ends = tap, number, (near, far)
        self.left = tap.distance()            # octets until it breaks, None where it does not
        self.stalled = threading.Event()      # nothing goes through, though both ends stand
        self.stalled.set()
        self.ended = threading.Event()
        self.begun = time.monotonic()
        for one, other, way in ((near, far, "O"), (far, near, "I")):
            threading.Thread(target=self.pass_on, args=(one, other, way), daemon=True).start()

    def allowed(self, octets):
        """How many of these octets go through."""
        with self.tap.lock:
            if self.left is None:
                return len(octets)
            count = min(self.left, len(octets))
            self.left -= count
            return count

    def pass_on(self, one, other, way):
        try:
            while octets := one.recv(PIECE):
                self.stalled.wait()
                count = self.allowed(octets)
                self.tap.write(self, way, octets[:count])
                other.sendall(octets[:count])
                if count < len(octets) and not self.tap.stalls:
                    self.tap.broke(self)
                    break
                if count < len(octets):
                    self.stall()
                    other.sendall(octets[count:])
        except OSError:
            pass
        self.stalled.wait()
        self.close()

    def stall(self):
        """Nothing goes through until somebody sets `stalled` again: then all of it does."""
        self.left = None
        self.stalled.clear()
        self.stalled_at = time.monotonic()
        self.tap.broke(self)
        self.stalled.wait()

    def close(self):
        for end in self.ends:
            try:
                end.shutdown(socket.SHUT_RDWR)
            except OSError:
                pass
        if not self.ended.is_set():
            self.ended.set()
            self.ended_at = time.monotonic()


class Tap:
    """Relays connections of one port to another one. `most` is the greatest number of octets after which a connection
    breaks, while breaks are wanted; `trace` the path of what is written down, a file for each connection."""

    def __init__(self, port, target, trace=None, seed=0):
        self.target, self.trace, self.most, self.wanted = target, trace, None, 0
        self.random = random.Random(seed)
        self.lock = threading.RLock()
        self.broken, self.connections = 0, []
        self.stalls, self.exactly = False, None      # a connection stalls in place of breaking; where it does
        self.server = socket.create_server(("127.0.0.1", port))
        threading.Thread(target=self.accept, daemon=True).start()

    def distance(self):
        with self.lock:
            if self.most is None or self.broken >= self.wanted:
                return None
            if self.exactly is not None:
                return self.exactly
            return self.random.randint(1, self.random.choice((SHORT, self.most, self.most, self.most)))

    def broke(self, connection):
        with self.lock:
            self.broken += 1

    def write(self, connection, way, octets):
        if self.trace and octets:
            with self.lock, open(f"{self.trace}-{connection.number}.txt", "a", encoding="ascii") as file:
                file.write(f"{way}\n000000 {octets.hex(' ')}\n")

    def accept(self):
        while True:
            near = self.server.accept()[0]
            try:
                far = socket.create_connection(("127.0.0.1", self.target))
            except OSError:
                near.close()
                continue
            for end in (near, far):
                end.setsockopt(socket.IPPROTO_TCP, socket.TCP_NODELAY, 1)
            self.connections.append(Connection(self, len(self.connections) + 1, near, far))
