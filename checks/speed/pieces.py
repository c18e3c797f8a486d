"""What it takes to hand messages over in pieces, over a line on which each octet takes 10 ms in either direction, a
round trip of 20 ms: messages of some 63 KiB in pieces of 1, 4 and 64 KiB, with windows of 1, 3 and 8. The line is a
relay of this script's own (Line), since a kernel need not have one (netem). With a window of w a message of p pieces
needs p / w round trips, rounded up: that and the syncs of both agents are printed first, and then what the run took. By
the clock, less what the association takes, the best of two. Words: [MESSAGES], 3.
"""
import queue
import socket
import sys
import threading
import time

import agents
import tools

SIZE, ONE_WAY = 64_000, 0.010


class Line:
    """A port at which one connection is taken; all that comes goes on to another port, and back, each after a time."""

    def __init__(self, to):
        self.to, self.server = to, socket.create_server(("127.0.0.1", 0))
        self.port = self.server.getsockname()[1]
        threading.Thread(target=self.carry, daemon=True).start()

    def carry(self):
        near, _ = self.server.accept()
        self.server.close()
        far = socket.create_connection(("127.0.0.1", self.to))
        for end in (near, far):
            end.setsockopt(socket.IPPROTO_TCP, socket.TCP_NODELAY, 1)
        for came, goes in ((near, far), (far, near)):
            waiting = queue.SimpleQueue()
            threading.Thread(target=self.take, args=(came, waiting), daemon=True).start()
            threading.Thread(target=self.put, args=(waiting, goes), daemon=True).start()

    @staticmethod
    def take(came, waiting):
        octets = b"more"
        while octets:
            octets = came.recv(1 << 20)
            waiting.put((time.monotonic() + ONE_WAY, octets))

    @staticmethod
    def put(waiting, goes):
        while True:
            due, octets = waiting.get()
            time.sleep(max(0.0, due - time.monotonic()))
            if not octets:
                break
            goes.sendall(octets)
        goes.shutdown(socket.SHUT_WR)


def handed(many, checkpoint, window, disk):
    """The seconds until so many messages are sent, and the syncs of both agents."""
    line = f"monologue {checkpoint} {window}"
    one = agents.Agent(tools.FOLDER, "GOLD-1", ["ACME-1"], many, tools.message(SIZE, b"ACME"), line, disk)
    other = agents.Agent(tools.FOLDER, "ACME-1", ["GOLD-1"], line=line, disk=disk)
    port = tools.free_port()
    took = agents.run([other], [one], [(one.name, other.name, Line(port).port, port)])
    if other.delivered() != many:
        sys.exit("not every message was delivered")
    return took.sent, [disk.counted(it.folder) for it in (one, other)]


def main():
    many = tools.numbers(3)[0]
    tools.machine(tools.FOLDER)
    disk, found = agents.Disk(), []
    octets = len(tools.message(SIZE, b"ACME")) + 100  # with a trace
    for checkpoint in (1, 4, 64):
        pieces = -(-octets // (1024 * checkpoint))
        for window in (1, 3, 8):
            more, alone = (min(handed(it, checkpoint, window, disk) for _ in range(2)) for it in (many + 1, 1))
            trips, each = -(-pieces // window), (more[0] - alone[0]) / many
            syncs = [(it - one) / many for it, one in zip(more[1], alone[1])]
            print(f"{pieces} of {checkpoint} KiB, window {window}: a message takes {trips} round trips, and "
                  f"{syncs[0]:g} and {syncs[1]:g} syncs; it took {each / (2 * ONE_WAY):.1f} round trips", flush=True)
            found.append((checkpoint, window, trips, each * 1e3))
    tools.rows("pieces", found)


main()
