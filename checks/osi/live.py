"""A bridge with a thousand connections that say nothing, or nothing that is an association, and a true peer among them:
live.py FOLDER. It takes a little more than a minute."""
import os
import random
import resource
import socket
import subprocess
import sys
import threading
import time
from pathlib import Path

from played import GOLD, rtse, session, tpkt, units

from primitives import Address, NormalMode  # noqa: E402

TOP = Path(__file__).resolve().parents[2]
CALL_OF = bytes.fromhex("0300000B06E00000000100")
BIND_OF = rtse.Opening(17, 3, rtse.MONOLOGUE, rtse.Bind(GOLD.encode(), b"ours"))

COUNT = 1000
OPENS_WITHIN = 60
SLACK = 30          # seconds that a slow machine may take besides
MOST_MEMORY = 400   # MB
PORT = 10_000 + os.getpid() % 200 * 100 + 90


def station(port, got):
    """Takes links, answers each Open and Close, and notes what came."""
    server = socket.create_server(("127.0.0.1", port))

    def serve(link):
        reader = units.Reader()
        while octets := link.recv(4096):
            for kind, body in reader.received(octets):
                got.append(kind)
                if kind == units.OPEN:
                    asked = rtse.opening_of(units.read_open(body)[2], rtse.REQUEST, None)
                    answer = rtse.Opening(asked.checkpoint, asked.window, 0, rtse.Bind(b"SILVER-1", b"theirs"))
                    link.sendall(units.unit(units.ACCEPT, body=rtse.accepted(answer)))
                if kind == units.CLOSE:
                    link.sendall(units.unit(units.CLOSE_ACK))

    def accept():
        while True:
            threading.Thread(target=serve, args=(server.accept()[0],), daemon=True).start()
    threading.Thread(target=accept, daemon=True).start()


def true_peer(number):
    """Opens an association and releases it."""
    mode = NormalMode()
    with socket.create_connection(("127.0.0.1", PORT), 60) as link:
        transport = tpkt.Transport(link.sendall)
        transport.call(b"", b"")
        pdus = []
        reference = session.Reference(b"GOLD-1/%010d" % number, b"261202040154Z")
        sent = 0
        while sent < 2 or not pdus or mode.read(pdus[-1])[0][0] != "release_answer":
            octets = link.recv(4096)
            assert octets, "the bridge ended the connection"
            pdus += transport.received(octets)
            if transport.open and sent == 0:
                transport.put(mode.connect(reference, Address(), Address(), BIND_OF))
                sent = 1
            elif pdus and sent == 1:
                assert mode.read(pdus[0])[0][0] == "accept"
                transport.put(mode.release())
                sent = 2


def memory_of(process):
    """MB that a process has in memory at most."""
    lines = Path(f"/proc/{process.pid}/status").read_text().splitlines()
    return next(int(it.split()[1]) for it in lines if it.startswith("VmHWM")) // 1024


def silent(count):
    """Connections of which some say nothing, some ask for a transport connection, and some go on with octets
    at random."""
    links = []
    for number in range(count):
        link = socket.create_connection(("127.0.0.1", PORT), 60)
        links.append(link)
        if number % 3:
            link.sendall(CALL_OF)
        if number % 3 == 2:
            # a session PDU that never ends
            link.sendall(tpkt.packet(b"\2\xF0\0" + random.randbytes(200)))
    return links


def main(folder):
    most = resource.getrlimit(resource.RLIMIT_NOFILE)[1]
    resource.setrlimit(resource.RLIMIT_NOFILE, (most, most))
    Path(folder, "peer.conf").write_text("peer GOLD-1\n")
    got = []
    station(PORT + 1, got)
    log = open(Path(folder, "bridge.log"), "w", encoding="utf-8")
    bridge = subprocess.Popen([sys.executable, TOP / "contrib" / "mta-osi", "in", f"127.0.0.1:{PORT}",
                               f"127.0.0.1:{PORT + 1}", "peer.conf"], cwd=folder, stderr=log)
    try:
        for _ in range(300):
            time.sleep(0.1)
            try:
                true_peer(1)
                break
            except ConnectionRefusedError:
                pass
        begun = time.monotonic()
        links = silent(COUNT)
        true_peer(2)
        print(f"a true peer is served among {COUNT} that are none, {memory_of(bridge)} MB")
        for link in links:
            link.settimeout(max(1, begun + OPENS_WITHIN + SLACK * 4 - time.monotonic()))
            try:
                while link.recv(4096):
                    pass
            except ConnectionError:
                pass
        took = time.monotonic() - begun
        assert took > OPENS_WITHIN - 1, took
        true_peer(3)
        print(f"all of them were dropped after {OPENS_WITHIN} seconds")
        assert got.count(units.OPEN) == 3 and memory_of(bridge) < MOST_MEMORY
        assert "Traceback" not in Path(folder, "bridge.log").read_text(encoding="utf-8")
        bridge.terminate()
        assert bridge.wait(60) == 0
        print("it ends with status 0")
    finally:
        bridge.kill()


if __name__ == "__main__":
    main(*sys.argv[1:])
