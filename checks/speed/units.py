"""Octets a second that mta_units reads of a stream of Data units of 4 KiB fed in cuts of 1,500 octets, beside memcpy
of the same cuts in C (units.c). User time, the best of seven runs.
"""
import subprocess

import tools

OCTETS = 4105 * 750 * 300


def main():
    tools.needs("gcc")
    copy = f"{tools.FOLDER}/copy"
    subprocess.run(["gcc", "-O2", "-o", copy, f"{tools.HERE}/units.c"], check=True)
    tools.machine()
    tools.prints("225000 units 921600000 octets", "units")
    ours = tools.user_seconds("units")[0]
    theirs = tools.of_several([tools.ran([copy])[1].ru_utime for _ in range(7)])[0]
    print(f"units: {OCTETS / ours / 1e6:.0f} million octets a second; memcpy: {OCTETS / theirs / 1e6:.0f} million; "
          f"ratio {theirs / ours:.3f}")


main()
