"""Appends to a journal in a file, beside plain writes of the same octets: record and gate, with an fdatasync each, as
an append has them, and beside one write and one fdatasync. The ways take turns, three times each; the best counts.
Words: [APPENDS [FOLDER]], 500 in a folder under /var/tmp.
"""
import os
import time

import tools

SIZES = (100, 1_000, 10_000, 100_000, 1_000_000)


def removed(path):
    if os.path.exists(path):
        os.remove(path)
    return path


def appends(folder, size, many):
    def way():
        return tools.run([tools.BENCH, "journal", "journal", removed(f"{folder}/file"), str(many), str(size)])[0] / many
    return way


def writes(folder, size, many, syncs):
    octets = tools.record(b"\x07" * size) + b"\0"

    def way():
        file, at = os.open(removed(f"{folder}/file"), os.O_CREAT | os.O_WRONLY), 0
        start = time.monotonic()
        for _ in range(many):
            os.pwrite(file, octets, at)
            os.fdatasync(file)
            if syncs == 2:
                os.pwrite(file, b"\x01", at)
                os.fdatasync(file)
            at += len(octets) - 1
        took = (time.monotonic() - start) / many
        os.close(file)
        return took
    return way


def main():
    many, folder = (tools.words(500) + [tools.FOLDER])[:2]
    tools.machine(folder)
    found = []
    for size in SIZES:
        # few of long ones, so that a file stays below 100 MB
        each = min(int(many), 100_000_000 // size)
        ways = [appends(folder, size, each), writes(folder, size, each, 2), writes(folder, size, each, 1)]
        ours, two, one = tools.in_turn(ways)
        found.append((size, ours[0] * 1e6, two[0] * 1e6, one[0] * 1e6))
        print(f"{each} bodies of {size} octets: an append {ours[0] * 1e6:.0f} us (spread {ours[1]:.2f}); as a multiple "
              f"of two synced writes {ours[0] / two[0]:.2f} (spread {two[1]:.2f}; wished: at most 1.2), of one "
              f"{ours[0] / one[0]:.2f}", flush=True)
    tools.rows("journal", found)


main()
