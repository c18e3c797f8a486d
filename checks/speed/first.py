"""What it takes from a first connection to a delivered message: two agents with spools that stand, one of which has a
message of 1 KiB for the other, are started from cold, and have both ended once it is delivered. The syncs of both,
which do not vary, come first; beside it a connection over loopback and so many synced writes, and three processes that
do nothing; and smtp-source, which hands a message of that length to a Postfix that was just started, so that its smtpd
is started too, and to one that runs. By the clock, the median of each. Words: [RUNS], 15.
"""
import os
import socket
import statistics
import sys
import time

import agents
import tools
from postfix import Queue

SIZE = 1024


def agent_pair(disk=None):
    one = agents.Agent(tools.FOLDER, "GOLD-1", ["ACME-1"], 1, tools.message(SIZE, b"ACME"), disk=disk)
    return one, agents.Agent(tools.FOLDER, "ACME-1", ["GOLD-1"], disk=disk)


def first(disk=None):
    """The seconds from the start of the one that is called to the end of both, and their syncs."""
    one, other = agent_pair(disk)
    start = time.monotonic()
    agents.run([other], [one], agents.links([one.name], [other.name]))
    took = time.monotonic() - start
    if other.delivered() != 1:
        sys.exit("the message was not delivered")
    return took, [agents.Disk.counted(it.folder) for it in (one, other)] if disk else []


def plain(syncs):
    """The seconds of three processes, of a connection, and of as many writes with a sync each."""
    start = time.monotonic()
    for _ in range(3):
        tools.run(["/bin/true"])
    with socket.create_server(("127.0.0.1", 0)) as server, socket.create_connection(server.getsockname()):
        server.accept()[0].close()
    file = os.open(f"{tools.FOLDER}/plain", os.O_CREAT | os.O_WRONLY | os.O_TRUNC)
    for at in range(syncs):
        os.pwrite(file, bytes(200), 200 * at)
        os.fdatasync(file)
    os.close(file)
    return time.monotonic() - start


def beside(queue, runs):
    """The seconds of smtp-source, to a Postfix that was just started and to one that runs."""
    queue.start(1)
    cold = queue.is_handed(SIZE, 1, 1)
    warm = statistics.median(queue.is_handed(SIZE, 1, 1) for _ in range(runs))
    queue.stop()
    return cold, warm


def main():
    runs = tools.numbers(15)[0]
    tools.machine(tools.FOLDER)
    syncs = first(agents.Disk())[1]
    print(f"syncs: {syncs[0]} at the agent that has the message, {syncs[1]} at the one that delivers it", flush=True)
    found = [(first()[0], plain(sum(syncs))) for _ in range(runs)]
    ours, base = (statistics.median(it) for it in zip(*found))
    print(f"both started, connected, the message delivered, both ended: {ours * 1e3:.1f} ms; as a multiple of "
          f"processes, a connection and synced writes {ours / base:.2f}", flush=True)
    queue = Queue.ready(f"{tools.FOLDER}/postfix")
    if queue:
        each = [beside(queue, 5) for _ in range(3)]
        for what, at in (("that was just started", 0), ("that runs", 1)):
            print(f"smtp-source to a Postfix {what}, as a multiple: {min(it[at] for it in each) / ours:.2f}")


main()
