"""What an audit of two spools takes, beside opening both: activities of messages of 1 KiB that one agent sent the
other, or each the other on a two-way lane. Seconds of processors, the best of three runs, and the most memory that a
process had; a spool is opened by `mta read` of a mailbox that it does not have, which makes no step. Words:
ACTIVITIES.., 100,000 where none are named.
"""
import os

import steps
import tools
from tools import element

SIZE = 1024  # octets of the content of a message
DOMAIN = element(0x61, element(0x13, b"GB")) + element(0x62, element(0x13, b"GOLD"))


def apdu(trace):
    """A message of Bell to Watt, with this trace."""
    identifier = element(0x64, element(0x63, DOMAIN) + element(0x16, b"M0001"))
    fields = tools.name(b"GOLD", b"BELL") + identifier + element(0x46, b"\x16") + element(0x69, trace)
    recipient = element(0x31, tools.name(b"GOLD", b"WATT") + element(0x80, b"\x01") + element(0x81, b"\x00\xa8"))
    envelope = element(0x31, fields + element(0xA2, recipient))
    return element(0xA0, envelope + element(0x04, b"H" * SIZE))


RELAYED = element(0x31, element(0x80, b"500101000000Z") + element(0x82, b"\x00"))
SUBMITTED = steps.accepted(apdu(b""))
ARRIVED = apdu(element(0x30, element(0x63, DOMAIN) + RELAYED))


def tables(own, peer):
    return steps.tables(f"domain C=GB;A=GOLD\nname {own}\npeer {peer} ours theirs twa 4 3\nroute C=GB peer {peer}\n")


def sent(activity, item):
    """An item is accepted, and sent as this activity."""
    return SUBMITTED + steps.sent(activity, item)


def completed(activity):
    return steps.completed(activity, ARRIVED)


def write(path, start, rows):
    os.makedirs(os.path.dirname(path))
    with open(path, "wb") as file:
        file.write(b"MTASPL01" + start)
        for row in rows:
            file.write(row)
        file.write(b"\x00")


def spools(folder, activities, is_two_way):
    """The spools of both agents."""
    tools.fresh(folder)
    each = range(1, activities + 1)
    if is_two_way:
        caller = (sent(it, 2 * it - 1) + completed(it) for it in each)
        called = (completed(it) + sent(it, 2 * it) for it in each)
    else:
        caller, called = (sent(it, it) for it in each), (completed(it) for it in each)
    write(f"{folder}/first/mta.spool", tables("silver", "gold") + steps.opened(b"\x00", b"gold"), caller)
    write(f"{folder}/second/mta.spool", tables("gold", "silver") + steps.opened(b"\x01", b"silver"), called)


def best(command, cwd, status=0):
    """The seconds of processors and the most octets of memory, the least of three runs."""
    each = [tools.ran(command, cwd=cwd, statuses=(status,))[1] for _ in range(3)]
    return min(it.ru_utime + it.ru_stime for it in each), min(it.ru_maxrss for it in each) * 1024


def main():
    folder = tools.FOLDER
    tools.machine(folder)
    for count in tools.numbers(100_000):
        # on a two-way lane each agent sends half of them
        for what, is_two_way, each in (("one way", False, count), ("both ways", True, count // 2)):
            spools(f"{folder}/both", each, is_two_way)
            ends = [best([tools.MTA, "read", "nobody"], f"{folder}/both/{it}", 10) for it in ("first", "second")]
            took, held = best([tools.AUDIT, "first/mta.spool", "second/mta.spool"], f"{folder}/both")
            opening, larger = sum(it[0] for it in ends), max(it[1] for it in ends)
            print(f"{count} activities, {what}: {took:.2f} s and {held / 1e6:.0f} MB; as a multiple of opening both "
                  f"{took / opening:.2f} (wished: at most 3), of the larger spool's memory {held / larger:.2f} "
                  f"(wished: at most 2.2)", flush=True)


main()
