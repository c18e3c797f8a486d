"""What it takes to hand messages of 10 KiB over to an agent over 1, 4 and 16 associations at a time, from as many
agents, since an agent calls a peer over one association at a time, until each is durable there and known to be so
where it came from; beside Postfix, which hands as many from its queue to its own smtpd over as many connections, and
beside smtp-source of Postfix, which has no queue; and beside the bound: as many processes, each of which writes what
the steps of its agent write, with the same syncs, and waits for nobody. The ways take turns, three times each; the best
counts. Words: [MESSAGES [ASSOCIATIONS..]], 2,000 over 1, 4 and 16.
"""
import os
import time

import agents
import tools
from postfix import Queue

SIZE = 10_240


def relays(many, ways, kept):
    """The seconds until all is sent; what processors worked for both sides is kept."""
    took = agents.handed(many, ways, 1, SIZE)[0]
    kept.append(took.worked)
    return took.sent


SENT = (60, 30, 40)  # octets of the records of Start, Ending and Sent
TAKEN = (SIZE + 300, 30)  # of Complete and Deliver


def writes(path, many, sizes):
    """Appends records of these sizes so many times, each with its sync and its gate with another."""
    file, at = os.open(path, os.O_CREAT | os.O_WRONLY | os.O_TRUNC), 0
    for _ in range(many):
        for size in sizes:
            os.pwrite(file, bytes(size), at)
            os.fdatasync(file)
            os.pwrite(file, b"\x01", at)
            os.fdatasync(file)
            at += size
    os.close(file)


def plain(many, ways):
    """The seconds of plain writes with the syncs of a run: of each agent that sends, and of the one that takes."""
    jobs = [(many // ways, SENT)] * ways + [(many, TAKEN)]
    start, children = time.monotonic(), []
    for number, (count, sizes) in enumerate(jobs):
        child = os.fork()
        if not child:
            writes(f"{tools.FOLDER}/plain{number}", count, sizes)
            os._exit(0)
        children.append(child)
    for child in children:
        os.waitpid(child, 0)
    return time.monotonic() - start


def hands(queue, many, ways):
    """The seconds of smtp-source, and of what it brought from the queue."""
    queue.start(ways)
    try:
        return queue.is_handed(SIZE, many, ways), queue.hands()
    finally:
        queue.stop()


def told(what, found, many, ours=None):
    best, spread = found
    ratio = "" if ours is None else f", as a multiple of mta's {ours / best:.2f}"
    print(f"  {what}: {many / best:.0f} messages a second (spread {spread:.2f}){ratio}", flush=True)
    return many / best


def over(queue, many, ways):
    many, ours, theirs, kept, bound = many // ways * ways, [], [], [], []
    for _ in range(3):
        ours.append(relays(many, ways, kept))
        bound.append(plain(many, ways))
        if queue:
            theirs.append(hands(queue, many, ways))
    print(f"{many} messages of 10 KiB over {ways}")
    ours = tools.of_several(ours)
    row = [ways, told("mta", ours, many), 0, 0]
    told("plain writes with the same syncs, by as many processes", tools.of_several(bound), many, ours[0])
    print(f"  of which processors of all agents worked {min(kept) / many * 1e3:.2f} ms a message, by the clock "
          f"{ours[0] / many * 1e3:.2f} ms")
    if queue:
        queued = tools.of_several([it[1] for it in theirs])
        row[3] = told("smtp-source to Postfix", tools.of_several([it[0] for it in theirs]), many, ours[0])
        row[2] = told("Postfix to Postfix", queued, many, ours[0])
        print(f"  mta, as a multiple of Postfix to Postfix: {queued[0] / ours[0]:.2f} (wished: 3 and more)", flush=True)
    return row


def main():
    many, *ways = tools.numbers(2000)
    tools.machine(tools.FOLDER)
    queue = Queue.ready(f"{tools.FOLDER}/postfix")
    found = [over(queue, many, it) for it in ways or (1, 4, 16)]
    tools.rows("relay", found)


main()
