"""What it takes to hand messages over where a sync takes 2 ms, beside what the syncs alone take that stand one behind
the other. The disks are files in memory, and behind each sync the program sleeps (syncs.c), so nothing else takes time
there. A message is six syncs at the agent that sends it (Start, Ending, Sent, two each) and two at the one that takes
it (Complete), all eight in a row; behind the session come two more there (Deliver). A spool makes one step at a time:
so a message takes at least 8 / N syncs over N associations, 2 where one agent takes all, and 6 where one sends all. Two
runs of each, the best counts. With status 1 where a run takes more than 1.2 times what its syncs do, if they take a
millisecond and more. Words: [MICROSECONDS [ASSOCIATIONS..]], 2,000 over 1, 4 and 16; with 0 nothing is waited.
"""
import subprocess
import sys

import agents
import tools

MOST = 1.2  # a run, as a multiple of what its syncs take
SIZE = 10_240
AT_ONE, COMPLETE, DELIVER = 6, 2, 2
PROBE = """
import os, sys, time
file, found = os.open(sys.argv[1], os.O_CREAT | os.O_WRONLY), []
for _ in range(200):
    start = time.monotonic()
    os.pwrite(file, bytes(1024), 0)
    os.fdatasync(file)
    found.append(time.monotonic() - start)
print(sorted(found)[100])
"""


def syncs(many):
    """The syncs of both agents in a run over one association."""
    disk = agents.Disk()
    _, (one,), (other,) = agents.handed(many, 1, 1, SIZE, disk)
    return disk.counted(one.folder), disk.counted(other.folder)


def told_syncs():
    """How many syncs a message is, and an association, which never varies."""
    few, more = syncs(10), syncs(60)
    one, other = (divmod(more[it] - few[it], 50) for it in (0, 1))
    rests = [few[it] - 10 * each[0] for it, each in ((0, one), (1, other))]
    print(f"a message: {one[0]} syncs at the agent that sends it, {other[0]} at the one that takes it; opening, the "
          f"association and its end: {rests[0]} and {rests[1]}", flush=True)
    if (one, other) != ((AT_ONE, 0), (COMPLETE + DELIVER, 0)):
        sys.exit(f"other numbers of syncs than the bound has: {few} for 10 messages, {more} for 60")


def over(froms, tos, disk, sync):
    """A run over so many associations, beside its bound."""
    ways = max(froms, tos)
    at_most = max((AT_ONE + COMPLETE) / ways, AT_ONE if tos > 1 else COMPLETE)
    many = int(min(32_000, 2.5 / sync) / at_most) // ways * ways
    runs = [agents.handed(many, froms, tos, SIZE, disk)[0] for _ in range(2)]
    (sent, spread), (ended, _) = (tools.of_several([getattr(it, what) for it in runs]) for what in ("sent", "ended"))
    bound = many * sync * at_most
    behind = bound + many * sync * DELIVER / tos
    print(f"{many} messages from {froms} to {tos}: {many / sent:.0f} a second (spread {spread:.2f}), by their syncs at "
          f"most {many / bound:.0f}: {sent / bound:.2f} times as long; until all are delivered {many / ended:.0f}, at "
          f"most {many / behind:.0f}: {ended / behind:.2f} times as long (wished: at most {MOST}); processors of all "
          f"agents worked {min(it.worked for it in runs) / many * 1e3:.2f} ms a message", flush=True)
    return ways, many / sent, many / bound


def main():
    microseconds, *ways = tools.numbers(2000)
    tools.machine(tools.FOLDER)
    told_syncs()
    disk = agents.Disk(microseconds)
    words = [sys.executable, "-c", PROBE, f"{tools.FOLDER}/probe"]
    said = subprocess.run(words, env=disk.env(tools.FOLDER), capture_output=True, text=True, check=True).stdout
    print(f"a sync with {microseconds} us behind it takes {float(said) * 1e3:.2f} ms (median)", flush=True)
    found = [over(it, 1, disk, float(said)) for it in ways or (1, 4, 16)]
    tools.rows("relay_slow", found)
    found.append(over(1, max(ways or [16]), disk, float(said)))
    longest = max(bound / taken for _, taken, bound in found)
    tools.bad_if(microseconds >= 1000 and longest > MOST, f"more than {MOST} times what the syncs take")


main()
