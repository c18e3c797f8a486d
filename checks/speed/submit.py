"""What it takes to submit messages of 1 KiB that wait for a peer, a process each, beside Postfix's `sendmail`, which
puts the same content into a queue of its own on the same disk, and beside writing the same octets plainly with two
syncs each; and what one more takes where many are held, beside opening that spool alone (`mta read` of a mailbox that
it does not have), which is its bound. The ways take turns, three times each; the best counts. Words: [MESSAGES
[HELD..]], 1,000.
"""
import os
import time

import tools
from postfix import Queue


def submits(mta, folder, apdu, many):
    """Into a new spool, a process each."""
    def way():
        tools.fresh(f"{folder}/agent")
        with open(f"{folder}/agent/mta.tables", "wb") as file:
            file.write(tools.TABLES)
        start = time.monotonic()
        for _ in range(many):
            tools.run([mta, "submit"], cwd=f"{folder}/agent", given=apdu)
        return (time.monotonic() - start) / many
    return way


def writes(folder, octets, many):
    """Record and gate, each with a sync, in one process."""
    def way():
        file = os.open(f"{folder}/plain", os.O_CREAT | os.O_WRONLY | os.O_TRUNC)
        start, at = time.monotonic(), 0
        for _ in range(many):
            os.pwrite(file, octets, at)
            os.fdatasync(file)
            os.pwrite(file, b"\x01", at)
            os.fdatasync(file)
            at += len(octets)
        took = (time.monotonic() - start) / many
        os.close(file)
        return took
    return way


def said(what, figure, beside=None):
    best, spread = figure
    ratio = "" if beside is None else f", as a multiple of mta's {best / beside:.2f}"
    print(f"{what}: {best * 1000:.2f} ms each (spread {spread:.2f}){ratio}", flush=True)


def beside_held(mta, folder, apdu, counts, octets):
    found = []
    for held in counts:
        ways = []
        for name, is_delivered in (("waiting", False), ("delivered", True)):
            place = f"{folder}/held"
            tools.fresh(place)
            one = tools.message(1024) if is_delivered else octets
            tools.write_spool(place, tools.TABLES, held, one, is_delivered)
            (best, spread), (opened, _) = tools.in_turn(
                (lambda: tools.run([mta, "submit"], cwd=place, given=apdu)[0],
                 lambda: tools.run([mta, "read", "nobody"], cwd=place, statuses=(10,))[0]), 5)
            print(f"beside {held} {name}: {best * 1000:.1f} ms (spread {spread:.2f}), as a multiple of opening it "
                  f"{best / opened:.2f}", flush=True)
            ways.append(best)
        found.append((held, *(it * 1000 for it in ways)))
    tools.rows("submit", found)


def main():
    mta, folder, (many, *counts) = tools.MTA, tools.FOLDER, tools.words(1000)
    tools.machine(folder)
    octets = tools.message(1024, b"ACME")
    with open(f"{folder}/apdu", "wb") as file:
        file.write(octets)
    ways = [submits(mta, folder, f"{folder}/apdu", int(many)), writes(folder, tools.record(octets) + b"\0", int(many))]
    queue = Queue.ready(f"{folder}/postfix")
    if queue:
        ways.append(lambda: queue.sends(1024, int(many)))
    ours, plain, *theirs = tools.in_turn(ways)
    print(f"{many} messages of 1 KiB, one behind the other")
    said("mta submit", ours)
    said("two synced plain writes", plain, ours[0])
    if theirs:
        said("Postfix's sendmail", theirs[0], ours[0])
        print(f"messages a second, as a multiple of Postfix's: {theirs[0][0] / ours[0]:.2f} (wished: 2 and more)")
    beside_held(mta, folder, f"{folder}/apdu", [int(it) for it in counts or (0, 1000, 2000, 5000, 10_000)], octets)


main()
