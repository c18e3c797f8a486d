"""How long `mta drill 10000` takes, and whether its memory grows with its rounds: beside `mta drill 30000`. User and
system time and the most memory of a run, the best of seven. Words: [FEW [MANY]], 10,000 and 30,000.
"""
import subprocess
import sys

import tools


def best(count):
    """The seconds and the most octets of a drill of so many messages; what it prints is looked at first."""
    command = [tools.MTA, "drill", str(count)]
    said = subprocess.run(command, capture_output=True, text=True, check=True).stdout.splitlines()
    if said[3:4] != [f"delivered {count}"]:
        sys.exit(f"mta drill {count}: {said}")
    each = [tools.ran(command)[1] for _ in range(7)]
    return min(it.ru_utime + it.ru_stime for it in each), min(it.ru_maxrss for it in each) * 1024


def main():
    few, many = (tools.numbers(10_000, 30_000) + [30_000])[:2]
    tools.machine()
    (some, held), (more, held_more) = best(few), best(many)
    print(f"drill {few}: {some:.2f} s and {held / 1e6:.1f} MB; drill {many}: {more:.2f} s and {held_more / 1e6:.1f} MB")
    print(f"a message, as a multiple: {more / many / max(some / few, 1e-6):.2f}; the memory: {held_more / held:.2f}")
    tools.bad_if(few == 10_000 and some > 3, "10,000 messages take more than 3 seconds")
    tools.bad_if(held_more > 1.2 * held, "the memory grows with the rounds")


main()
