"""What `mta_store list` takes, beside opening the spool alone: entries of a mailbox of which none, each or every other
one has marks. Seconds of processors, the best of three runs, less those of an empty spool; a spool is opened by `mta
read` of a mailbox that it does not have, which makes no step. With status 1 where a list of entries that each have a
mark takes more than 1.3 times the opening. Words: ENTRIES.., 100,000 where none are named.
"""
import subprocess
import sys

import tools
from tools import counted, number, record

MOST = 1.3  # a list of entries with a mark each, as a multiple of opening the spool
FETCHED, DELETED = b"\x01", b"\x02"


def mark(kind, entry):
    return record(kind + counted(b"watt") + number(entry, 4))


def none(_):
    return b""


def each(entry):
    return mark(FETCHED, entry)


def every_other(entry):
    """Both marks of each second entry: as many marks as entries."""
    return mark(FETCHED, entry) + mark(DELETED, entry) if entry % 2 == 0 else b""


def write_marks(store, place, entries, marks):
    """The marks behind those of a journal that the program made, in place of the gate at its end."""
    subprocess.run([store, "list", "watt"], cwd=place, stdout=subprocess.DEVNULL, check=True)
    with open(f"{place}/mta.marks", "r+b") as file:
        file.seek(-1, 2)
        file.write(b"".join(marks(entry) for entry in range(1, entries + 1)) + b"\x00")


def times(mta, store, place):
    """Opening the spool, and the list: of each the best and the spread."""
    ways = (lambda: tools.run([mta, "read", "nobody"], cwd=place, statuses=(10,))[1],
            lambda: tools.run([store, "list", "watt"], cwd=place)[1])
    return tools.in_turn(ways)


def lines(store, place):
    said = subprocess.run([store, "list", "watt"], cwd=place, stdout=subprocess.PIPE, check=True).stdout
    return said.count(b"\n")


def main():
    mta, store, folder = tools.MTA, tools.STORE, tools.FOLDER
    tools.machine(folder)
    empty = tools.fresh(f"{folder}/empty")
    tools.write_spool(empty, tools.TABLES, 0, b"")
    (start, _), (store_start, _) = times(mta, store, empty)
    found, worst = [], 0
    for entries in tools.numbers(100_000):
        row = [entries]
        for what, marks, listed in (("no marks", none, entries), ("a mark each", each, entries),
                                    ("every other one deleted", every_other, entries - entries // 2)):
            place = tools.fresh(f"{folder}/spool")
            tools.write_spool(place, tools.TABLES, entries, tools.message(2), True)
            write_marks(store, place, entries, marks)
            if lines(store, place) != listed:
                sys.exit(f"{entries} entries, {what}: {lines(store, place)} lines")
            (opened, spread), (taken, other) = times(mta, store, place)
            ratio = (taken - store_start) / max(opened - start, 1e-6)
            print(f"{entries} entries, {what}: opened in {opened:.3f} s (spread {spread:.2f}), listed in {taken:.3f} s "
                  f"(spread {other:.2f}); as a multiple {ratio:.2f} (wished: at most {MOST})", flush=True)
            row.append(ratio)
            worst = max(worst, ratio if marks is each else 0)
        found.append(row)
    tools.rows("store", found)
    tools.bad_if(worst > MOST, f"a list takes more than {MOST} times the opening")


main()
