"""What an opening takes that compacts, beside one of the same records in a spool of one area, which is never
compacted, and a plain write of the snapshot with a sync; and the opening behind it. First messages of 1 KiB to an
unknown name, which are reported, and the reports discarded. Then messages of 1 KiB of which one in five was delivered
and the others were sent: what was delivered stays whole in the snapshot, and of what was sent the envelope, so the
opening behind it is taken beside one of a spool that has those that were delivered alone. Seconds by the clock, the
best of three. Words: [REPORTED [SENT AND DELIVERED]], 20,000 and 100,000.
"""
import os
import shutil
import time

import steps
import tools

AREAS = b"MTASPL01\x01" + tools.number(0, 3) + b"\x0a\xff" + bytes(9)
SIZE = 1024
DELIVERED, WAITED = tools.message(SIZE), tools.message(SIZE, b"ACME")
TABLES = """domain C=GB;A=GOLD
name silver
peer gold ours theirs monologue 4 3
mailbox watt C=GB;A=GOLD;S=WATT
route C=GB;A=ACME peer gold
"""


def best(way):
    """The least seconds by the clock of three."""
    return min(way() for _ in range(3))


def opened(place, made):
    """The seconds of an opening of a copy of a spool, which stays."""
    shutil.rmtree(place, ignore_errors=True)
    shutil.copytree(made, place)
    os.sync()
    return tools.run([tools.MTA, "read", "nobody"], cwd=place, statuses=(10,))[0]


def written(place, octets):
    """The seconds of a plain write of so many octets with a sync."""
    start = time.monotonic()
    with open(f"{place}/plain", "wb") as file:
        file.write(bytes(octets))
        file.flush()
        os.fdatasync(file.fileno())
    return time.monotonic() - start


def size_of(place):
    return os.path.getsize(f"{place}/mta.spool")


def in_areas(made):
    """A copy of a spool of one area, with its records in the first of two."""
    areas = f"{made}-areas"
    shutil.copytree(made, areas)
    with open(f"{made}/mta.spool", "rb") as file:
        octets = file.read()
    with open(f"{areas}/mta.spool", "wb") as file:
        file.write(AREAS + octets[8:])
    return areas


def compacted(what, made, count):
    """The spool as an opening leaves it that compacts, and the seconds of the next opening."""
    place, areas = f"{tools.FOLDER}/place", in_areas(made)
    before = size_of(made)
    replayed = best(lambda: opened(place, made))
    compacting = best(lambda: opened(place, areas))
    after = size_of(place)
    plain = best(lambda: written(tools.FOLDER, after))
    small = shutil.copytree(place, f"{made}-small")
    again = best(lambda: opened(f"{tools.FOLDER}/again", small))
    print(f"{count} messages of 1 KiB {what}: {before / 1e6:.1f} MB, compacted to {after / 1e6:.1f} MB, "
          f"{after / count:.0f} octets a message")
    print(f"  an opening that compacts {compacting:.2f} s; as a multiple of one that does not and a plain write of the "
          f"snapshot {compacting / (replayed + plain):.2f} (wished: at most 3); the next one, as a multiple of the one "
          f"that does not, {again / replayed:.2f}", flush=True)
    return again, after


def reported(count):
    """To a name that nobody knows: reported, and the report discarded."""
    made = f"{tools.FOLDER}/reported"
    tools.write_spool(made, tools.TABLES, count, tools.message(SIZE, b"NONE"))
    with open(f"{tools.FOLDER}/apdu", "wb") as file:
        file.write(tools.message(2))
    tools.run([tools.MTA, "submit"], cwd=made, given=f"{tools.FOLDER}/apdu")
    compacted("that were reported", made, count)


def write(place, sent, delivered):
    """A spool in which so many messages were sent and so many delivered, in turns."""
    os.makedirs(place)
    item = activity = 0
    with open(f"{place}/mta.spool", "wb") as file:
        file.write(b"MTASPL01" + steps.FORMAT + steps.tables(TABLES) + steps.opened(b"\x00", b"gold"))
        for at in range(max(sent, delivered)):
            if at < sent:
                item, activity = item + 1, activity + 1
                file.write(steps.accepted(WAITED) + steps.sent(activity, item))
            if at < delivered:
                item += 1
                file.write(steps.accepted(DELIVERED) + steps.delivered(item))
        file.write(b"\x00")
    return place


def sent_and_delivered(count):
    delivered = count // 5
    made = write(f"{tools.FOLDER}/sent", count - delivered, delivered)
    again, after = compacted("of which one in five was delivered and the others sent", made, count)
    alone = write(f"{tools.FOLDER}/alone", 0, delivered)
    base, size = best(lambda: opened(f"{tools.FOLDER}/again", alone)), size_of(alone)
    sent = count - delivered
    print(f"  of one that was sent {(after - size) / sent:.0f} octets are left; the opening behind it, as a multiple "
          f"of one with those alone that were delivered {again / base:.2f}: what was sent takes "
          f"{(again - base) / sent * 1e6:.1f} us a message, what was delivered {base / delivered * 1e6:.1f} us")


def main():
    few, many = (tools.numbers(20_000, 100_000) + [100_000])[:2]
    tools.machine(tools.FOLDER)
    reported(few)
    sent_and_delivered(many)


main()
