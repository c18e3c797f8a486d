"""The map of lanes: what it has after it was read again, cut off, written anew, or damaged. maps.py FOLDER"""
import os
import sys
from pathlib import Path

from played import associations, session

ONE, OTHER = (session.Reference(it, b"261202040154Z") for it in (b"GOLD-1/0000000001", b"GOLD-1/0000000002"))


def again(found):
    """The map as a new process has it."""
    found.lock.close()
    return associations.Map(found.path)


def filled(path):
    """A lane of which one activity was resumed on a hundred session connections."""
    found = associations.Map(path)
    lane = found.begin("GOLD-1", ONE)
    first = found.connect(lane, ONE)
    for number in range(1, 40):
        found.name(lane, first, b"\2\1" + bytes([number]), number)
        found.done(lane, number)
    found.name(lane, first, b"\2\1\x40", 64)
    found.ends_with(lane, 64, 4)
    for number in range(100):
        at = session.Reference(b"GOLD-1/0000000001/%d" % number, ONE.common)
        found.name(lane, found.connect(lane, at), b"\2\1\1", 64)
    return found


def check_kept(found):
    lane = found.lane_of("GOLD-1", ONE)
    newest = session.Reference(b"GOLD-1/0000000001/99", ONE.common)
    assert lane is found.lane_with(["SILVER-1", "GOLD-1"], newest)
    assert lane.first == ONE and lane.highest == 64 and lane.unfinished == 64 and lane.endings == {64: 4}
    # by its first name, which some peers use again and again, and by its newest one
    assert lane.number_of(ONE, b"\2\1\x40") == lane.number_of(newest, b"\2\1\1") == 64
    assert lane.number_of(ONE, b"\2\1\x27") == 39 and lane.number_of(ONE, b"\2\1\1") is None
    assert found.next_number(lane, b"\2\1\x41") == 65 and found.next_number(lane, b"\2\1\1") == 65
    assert len(lane.activities) < 60 and len(lane.sessions) < 90
    assert lane.is_up and not lane.is_closed


def refused(path):
    try:
        associations.Map(path)
    except associations.BadMap as why:
        return str(why)
    raise AssertionError("a damaged map was read")


def main(folder):
    path = os.path.join(folder, "map")
    found = again(again(filled(path)))
    check_kept(found)
    assert "another bridge" in refused(path)
    found.close(found.lane_of("GOLD-1", ONE))
    found = again(found)
    assert found.lane_of("GOLD-1", ONE).is_closed
    text = Path(path).read_bytes()
    found.lock.close()
    for cut in range(len(text.split(b"\n", 1)[0]) + 1, len(text)):
        # what a stop cut off is as if it had not been written
        Path(path).write_bytes(text[:cut])
        found = associations.Map(path)
        found.lock.close()
        assert Path(path).read_bytes().count(b"\nlane ") <= 1
    for damaged in (b"x" + text, text.replace(b"session", b"sessoin", 1), text.replace(b"lane 1 ", b"lane x ", 1)):
        Path(path).write_bytes(damaged)
        print(refused(path))
    print("the map is read as it was written")


if __name__ == "__main__":
    main(*sys.argv[1:])
