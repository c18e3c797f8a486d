#!/usr/bin/env python3
"""The peer against itself over loopback, or against a foreign peer in place of one side.

Without words: transfers unbroken, with a break at every unit of a session at either side, with two breaks, with an
activity that is given up, with kills of processes, and one wrong unit of each kind. Behind every run each message has
to have arrived exactly once. `selftest.py --help` tells how a foreign peer is named.
"""
import argparse
import sys
from concurrent.futures import ThreadPoolExecutor

import foreign
import kills
import wrongs
from pairs import Case, Pair, Wrong, break_at
from units import MONOLOGUE, TWO_WAY

SIZES, CHECKPOINTS, WINDOWS, MODES = (0, 1, 1024, 300_000), (0, 1), (1, 3, 8), (MONOLOGUE, TWO_WAY)
AT_ONCE = 8  # pairs that run side by side, since each mostly waits for its other end


def cases():
    return [Case(size, checkpoint, window, mode)
            for size in SIZES for checkpoint in CHECKPOINTS for window in WINDOWS for mode in MODES]


def points(units, variant, whole):
    """The units at which a session is broken: all of a short one. Of a long one six, other ones for each variant."""
    if whole or units <= 60:
        return list(range(1, units + 1))
    early, late = variant % 12, variant % 7
    middle = units // 3 + 5 * variant
    return [1 + early, 13 + early, middle, middle + units // 3, units - 7 - late, units - late]


def unbroken(case):
    pair = Pair(case)
    pair.until_closed()
    pair.check()
    return pair


def broken(case, breaks, give_up=0):
    """One run with these breaks, one a session, and then sessions without until one closes."""
    pair = Pair(case)
    pair.give_up = give_up
    try:
        pair.until_closed(breaks=[break_at(*it) for it in breaks])
        if give_up:
            check_given_up(pair)
        else:
            pair.check()
    except Wrong as why:
        lines = "\n".join(f"  {name}: {line}" for name in pair.lines for line in pair.lines[name])
        raise Wrong(f"{case.told()}, broken at {breaks}, given up at {give_up}: {why}\n{lines}") from None
    return pair


def check_given_up(pair):
    """Of the two messages one may be given up: it did not arrive, or only in part. The other arrived once."""
    states = [status for _, status in pair.state("initiator").messages]
    wanted = [octets for octets, status in pair.state("initiator").messages if status == "sent"]
    if pair.state("responder").received != wanted or not set(states) <= {"sent", "given up"}:
        raise Wrong(f"of {states} there came {len(pair.state('responder').received)}")


def all_of(does, jobs):
    """Runs jobs side by side; the first that fails ends all."""
    with ThreadPoolExecutor(AT_ONCE) as pool:
        return list(pool.map(lambda job: does(*job), jobs))


def transfers(whole):
    every = cases()
    pairs = all_of(unbroken, [(case,) for case in every])
    print(f"{len(pairs)} transfers without a break: every message arrived once", flush=True)
    sides, places = ("initiator", "responder"), ("after", "before")
    ways = [(pair, side, place) for pair in pairs for side in sides for place in places]
    jobs = [(pair.case, [(side, number, place)])
            for variant, (pair, side, place) in enumerate(ways)
            for number in points(pair.counts[side], variant, whole)]
    all_of(broken, jobs)
    print(f"{len(jobs)} transfers with a break: every message arrived once", flush=True)


def pairs_of_breaks():
    """A break at every unit of a session of two or three pieces, and one at every unit of the one that recovers."""
    jobs = []
    for size, mode, window in ((2_500, MONOLOGUE, 2), (1_500, TWO_WAY, 1)):
        case = Case(size, 1, window, mode)
        count = unbroken(case).counts["initiator"]
        for first in range(1, count + 1):
            for second in range(1, count + 1):
                one, other = ("initiator", "responder") if (first + second) % 2 else ("responder", "initiator")
                jobs.append((case, [(one, first, "after"), (other, second, "before")]))
                jobs.append((case, [(other, first, "before"), (one, second, "after")]))
    all_of(broken, jobs)
    print(f"{len(jobs)} transfers with two breaks: every message arrived once", flush=True)


def resets():
    """A break at every unit by a reset of the connection, which may lose what is on its way in either direction."""
    case = Case(2_500, 1, 2, TWO_WAY)
    counts = unbroken(case).counts
    jobs = [(case, [(side, number, place, "reset")])
            for side in counts for number in range(1, counts[side] + 1) for place in ("after", "before")]
    all_of(broken, jobs)
    print(f"{len(jobs)} transfers with a connection that is reset: every message arrived once", flush=True)


def each_in_turn():
    """Session i is broken behind unit i, until one closes before its break comes."""
    for mode in MODES:
        case = Case(300_000, 1, 8, mode)
        for side in ("initiator", "responder"):
            broken(case, [(side, number, "after") for number in range(1, 25)])
    print("transfers whose session i breaks behind unit i, for i from 1 to 24: every message arrived once", flush=True)


def given_up():
    """An activity is given up at every unit, and then the session is broken there, too."""
    case = Case(2_500, 1, 2, MONOLOGUE, count=2)
    count = unbroken(case).counts["initiator"]
    jobs = [(case, [], number) for number in range(1, count + 1)]
    jobs += [(case, [(side, number + later, "after")], number)
             for number in range(1, count + 1) for later in range(4) for side in ("initiator", "responder")]
    states = [status for pair in all_of(broken, jobs) for _, status in pair.state("initiator").messages]
    count = states.count("given up")
    if count < len(jobs) // 4:
        raise Wrong(f"of {len(jobs)} activities that were to be given up {count} were")
    print(f"{count} activities given up, in {len(jobs)} transfers: none arrived", flush=True)


def same_lines():
    """Two runs of the same case tell the same."""
    for breaks in ([], [("initiator", 9, "after")], [("responder", 8, "before"), ("initiator", 5, "after")]):
        case = Case(5_000, 1, 3, TWO_WAY)
        if broken(case, breaks).lines != broken(case, breaks).lines:
            raise Wrong(f"two runs with the breaks {breaks} tell different things")
    print("runs of the same case tell the same lines", flush=True)


def main():
    parser = argparse.ArgumentParser(description="The peer against itself, or against a foreign peer.")
    parser.add_argument("--whole", action="store_true", help="break long sessions at every unit too, which takes long")
    foreign.words(parser)
    arguments = parser.parse_args()
    try:
        if arguments.call or arguments.listen:
            return foreign.run(arguments)
        transfers(arguments.whole)
        pairs_of_breaks()
        resets()
        each_in_turn()
        given_up()
        same_lines()
        wrongs.run()
        kills.run()
    except Wrong as why:
        print(f"wrong: {why}")
        return 1
    return 0


if __name__ == "__main__":
    sys.exit(main())
