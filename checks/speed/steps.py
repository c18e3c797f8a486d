"""The octets of steps, for spools that the figures of checks/speed write themselves: lanes, and what went over them."""
from tools import counted, element, number, record

MOMENT = number(0, 8)  # each step is of 1950-01-01 00:00:00 UTC
GENERATION = number(1, 8)
LANE = number(1, 4)
REFERENCE = counted(b"silver") + MOMENT + b"\x01" + counted(b"0000000001")
FORMAT = record(b"\x19" + number(2, 4))


def tables(text):
    return record(b"\x01" + counted(text.encode()))


def opened(role, peer):
    """The lane, which the initiator's end agrees on besides."""
    values = b"\x00" + number(4, 4) + number(3, 4)
    lane = record(b"\x09" + role + counted(peer) + REFERENCE + values + MOMENT)
    return lane + (record(b"\x0a" + LANE + GENERATION + number(4, 4) + number(3, 4)) if role == b"\x00" else b"")


def accepted(octets):
    return record(b"\x02" + MOMENT + counted(octets))


def delivered(item):
    """An item's first recipient is delivered to."""
    return record(b"\x03" + number(item, 4) + number(1, 4) + MOMENT)


def sent(activity, item):
    """An item's first recipient is sent as this activity."""
    place = LANE + GENERATION + number(activity, 4)
    start = record(b"\x0c" + place + number(item, 4) + number(1, 4) + number(1, 4) + MOMENT)
    return start + record(b"\x0e" + place) + record(b"\x0f" + place + MOMENT)


def completed(activity, octets):
    place = LANE + GENERATION + number(activity, 4)
    return record(b"\x15" + place + number(1, 4) + counted(octets) + MOMENT)
