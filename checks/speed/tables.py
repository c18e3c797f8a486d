"""How long tables of 4,096 mailboxes, 4,096 routes and 256 lists take to answer where a name goes, beside a plain scan
of the mailboxes, and how long reading a text of them takes, beside one of half as many lines. User time, the best of
seven runs.
"""
import tools

READINGS = 8  # in a run that reads
NAMES, SCANNED, FEW = 131_072, 8192, 32


def main():
    tools.machine()
    tools.prints(f"{NAMES} names found", "tables", "route", 4096)
    tools.prints("4096 names found", "tables", "scan", 4096)
    half, whole, route, scan = (tools.user_seconds("tables", *it)[0]
                                for it in (("read", 2048), ("read", 4096), ("route", 4096), ("scan", 4096)))
    # so many times, since one is too short
    few, read_few = (tools.user_seconds("tables", what, 256, runs=FEW)[0] for what in ("route", "read"))
    one = whole / READINGS
    asked, asked_few = (route - one) / NAMES * 1e6, (few - read_few / READINGS) / FEW / SCANNED * 1e6
    scanned = (scan - one) / SCANNED * 1e6
    print(f"reading: {one * 1e3:.1f} ms for 4,096 mailboxes and routes, {half / READINGS * 1e3:.1f} ms for 2,048; "
          f"ratio {whole / half:.2f}")
    print(f"where a name goes: {asked:.2f} us, of 256 mailboxes and routes {asked_few:.2f} us; by a scan of 4,096 "
          f"mailboxes alone {scanned:.2f} us; ratio {scanned / asked:.0f}")
    tools.bad_if(whole > 2.5 * half, "reading twice the lines takes more than 2.5 times the time")


main()
