"""The units of an association and their octets, as docs/PROTOCOL.md has them."""
import re
from collections import namedtuple
from datetime import datetime, timedelta

import ber
from ber import CONTEXT, IA5, INTEGER, NULL, OCTETS, SEQUENCE, TIME, UNIVERSAL, Bad, written, written_integer

LONGEST = 2_097_157  # octets of a body
LONGEST_PIECE = 2_097_152
MONOLOGUE, TWO_WAY = 0, 1

# why an association is refused, and why one is aborted
BUSY, CANNOT_RECOVER, NOT_VALID, WRONG_MODE = 0, 1, 2, 3
LOCAL, PARAMETER, UNRECOGNIZED, TEMPORARY, PROTOCOL, PERMANENT, USER, COMPLETED = range(8)
TIMES = re.compile(rb"(\d\d)(\d\d)(\d\d)(\d\d)(\d\d)(\d\d)?(?:Z|([+-])(\d\d)(\d\d))")
TOO_LONG = 11  # the kind of fault of octets that pass the longest message

Reference = namedtuple("Reference", "calling common additional")  # octets, a UTCTime's text, octets or None
Bind = namedtuple("Bind", "name password")
Nothing = namedtuple("Nothing", "")
Recover = namedtuple("Recover", "reference")

Open = namedtuple("Open", "name reference checkpoint window mode data")
Accept = namedtuple("Accept", "checkpoint window data")
Reject = namedtuple("Reject", "reason")
Start = namedtuple("Start", "activity")
Data = namedtuple("Data", "octets")
Sync = namedtuple("Sync", "number")
SyncAck = namedtuple("SyncAck", "number")
End = namedtuple("End", "activity")
EndAck = namedtuple("EndAck", "activity")
Resume = namedtuple("Resume", "activity number")
ResumeAck = namedtuple("ResumeAck", "activity number")
Discard = namedtuple("Discard", "activity")
DiscardAck = namedtuple("DiscardAck", "activity")
Please = namedtuple("Please", "priority")
Give = namedtuple("Give", "")
Fault = namedtuple("Fault", "kind place")  # the unit Exception
Abort = namedtuple("Abort", "reason")
Close = namedtuple("Close", "")
CloseAck = namedtuple("CloseAck", "")

KINDS = (Open, Accept, Reject, Start, Data, Sync, SyncAck, End, EndAck, Resume, ResumeAck, Discard, DiscardAck, Please,
         Give, Fault, Abort, Close, CloseAck)
NUMBERS = {Start: 1, Sync: 1, SyncAck: 1, End: 1, EndAck: 1, Resume: 2, ResumeAck: 2, Discard: 1, DiscardAck: 1}
EMPTY = (Give, Close, CloseAck)


def told(unit):
    """A unit in words."""
    name = "Exception" if isinstance(unit, Fault) else type(unit).__name__
    if isinstance(unit, Data):
        return f"data of {len(unit.octets)}"
    if isinstance(unit, (Open, Accept)):
        mode = " two-way" if isinstance(unit, Open) and unit.mode == TWO_WAY else ""
        way = type(unit.data).__name__.lower()
        return f"{name} {way} checkpoint {unit.checkpoint} window {unit.window}{mode}"
    return " ".join([name] + [str(it) for it in unit])


def frame(kind, body):
    return len(body).to_bytes(4, "big") + bytes((kind,)) + body


def write(unit):
    """The octets of a unit."""
    kind = KINDS.index(type(unit)) + 1
    if type(unit) in NUMBERS:
        body = b"".join(number.to_bytes(4, "big") for number in unit)
    elif isinstance(unit, EMPTY):
        body = b""
    elif isinstance(unit, Data):
        body = written(OCTETS, unit.octets)
    elif isinstance(unit, Please):
        body = written_integer(INTEGER, unit.priority)
    elif isinstance(unit, Fault):
        body = bytes((unit.kind,)) + unit.place.to_bytes(4, "big")
    elif isinstance(unit, Reject):
        body = written(0xB2, written_integer(0x80, unit.reason))
    elif isinstance(unit, Abort):
        body = written(0xB6, written_integer(0x80, unit.reason))
    elif isinstance(unit, Accept):
        body = written(0xB1, values(unit.checkpoint, unit.window) + written(0xA2, data(unit.data)))
    else:
        mode = b"" if unit.mode == MONOLOGUE else written_integer(0x82, unit.mode)
        asked = values(unit.checkpoint, unit.window) + mode + written(0xA3, data(unit.data))
        body = written(IA5, unit.name) + reference(0x30, unit.reference) + written(0xB0, asked)
    return frame(kind, body)


def values(checkpoint, window):
    """A checkpoint size and a window; what is the default is not written."""
    return (b"" if checkpoint == 0 else written_integer(0x80, checkpoint)) + (
        b"" if window == 3 else written_integer(0x81, window))


def reference(tag, it):
    more = b"" if it.additional is None else written(0x80, it.additional)
    return written(tag, written(OCTETS, it.calling) + written(TIME, it.common.encode()) + more)


def data(it):
    if isinstance(it, Recover):
        return reference(0xA1, it.reference)
    if isinstance(it, Nothing):
        return written(0xA0, written(NULL, b""))
    credentials = written(0xA1, written(IA5, it.password))
    return written(0xA0, written(0xA1, written(0x80, it.name) + credentials))


def read(kind, body):
    """The unit of this kind octet with this body; `Bad` where it is none."""
    if not 1 <= kind <= len(KINDS):
        raise Bad("an unknown kind octet")
    of = KINDS[kind - 1]
    if of in NUMBERS:
        if len(body) != 4 * NUMBERS[of]:
            raise Bad("a body of another length")
        return of(*(int.from_bytes(body[at:at + 4], "big") for at in range(0, len(body), 4)))
    if of in EMPTY:
        if body:
            raise Bad("a body where none stands")
        return of()
    if of is Fault:
        if len(body) != 5 or not 1 <= body[0] <= 12:
            raise Bad("no kind and place of a fault")
        return Fault(body[0], int.from_bytes(body[1:], "big"))
    parts = ber.elements(body)
    if len(parts) != (3 if of is Open else 1):
        raise Bad("another number of elements")
    if of is Data:
        expect(parts[0], UNIVERSAL, OCTETS)
        return Data(parts[0].joined())
    if of is Please:
        expect(parts[0], UNIVERSAL, INTEGER)
        return Please(parts[0].integer())
    if of is Open:
        return read_open(*parts)
    if of is Accept:
        found = fields(parts[0], 17, (0, 1, 2))
        if 2 not in found:
            raise Bad("no connection data")
        answered = read_data(found[2].only())
        if isinstance(answered, Nothing):
            raise Bad("an answer with NULL")
        return Accept(number(found, 0, 0), number(found, 1, 3), answered)
    found = fields(parts[0], 18, (0, 1)) if of is Reject else fields(parts[0], 22, (0, 1, 2))
    return of(number(found, 0, 0))


def expect(it, kind, tag):
    if not it.is_tag(kind, tag):
        raise Bad("an element of another tag")


def fields(it, tag, known):
    """The components of a SET by their tags; each at most once, none that is not known."""
    expect(it, CONTEXT, tag)
    found = {}
    for part in it.inside():
        if part.kind != CONTEXT or part.number not in known or part.number in found:
            raise Bad("a component that is unknown or stands twice")
        found[part.number] = part
    return found


def number(found, tag, default):
    return found[tag].integer() if tag in found else default


def read_open(name, first, asked):
    expect(name, UNIVERSAL, IA5)
    expect(first, UNIVERSAL, SEQUENCE)
    found = fields(asked, 16, (0, 1, 2, 3, 4))
    if 3 not in found:
        raise Bad("no connection data")
    mode = number(found, 2, MONOLOGUE)
    if mode not in (MONOLOGUE, TWO_WAY):
        raise Bad("no dialogue mode")
    values_read = number(found, 0, 0), number(found, 1, 3)
    return Open(text(name, 1, 32), read_reference(first), *values_read, mode, read_data(found[3].only()))


def text(it, least, most):
    octets = it.joined(IA5)
    if not least <= len(octets) <= most or any(octet > 127 for octet in octets):
        raise Bad("no text of this class and size")
    return octets


def read_reference(it):
    parts = it.inside()
    if not 2 <= len(parts) <= 3:
        raise Bad("no reference")
    expect(parts[0], UNIVERSAL, OCTETS)
    expect(parts[1], UNIVERSAL, TIME)
    more = None
    if len(parts) == 3:
        expect(parts[2], CONTEXT, 0)
        more = parts[2].joined()
    calling = parts[0].joined()
    if len(calling) > 1024 or more is not None and len(more) > 1024:
        raise Bad("a reference of more than 1,024 octets")
    return Reference(calling, moment(parts[1].joined(TIME)), more)


def moment(octets):
    """The text with seconds and Z of the moment that a UTCTime tells, so that equal moments have equal texts."""
    parts = TIMES.fullmatch(octets)
    if not parts:
        raise Bad("no UTCTime")
    year, month, day, hour, minute, second, sign, hours, minutes = (it and it.decode() for it in parts.groups())
    if sign and (int(hours) > 23 or int(minutes) > 59):
        raise Bad("no offset of a UTCTime")
    try:
        local = datetime(int(year) + (1900 if int(year) >= 50 else 2000), int(month), int(day), int(hour), int(minute),
                         int(second or 0))
    except ValueError:
        raise Bad("a UTCTime that does not exist") from None
    away = timedelta(hours=int(hours), minutes=int(minutes)) if sign else timedelta(0)
    at = local + away if sign == "-" else local - away
    if not 1950 <= at.year <= 2049:
        raise Bad("a moment out of its range")
    return at.strftime("%y%m%d%H%M%SZ")


def read_data(it):
    if it.is_tag(CONTEXT, 1):
        return Recover(read_reference(it))
    expect(it, CONTEXT, 0)
    inner = it.only()
    if inner.is_tag(UNIVERSAL, NULL):
        if inner.constructed or len(inner.contents):
            raise Bad("a NULL with contents")
        return Nothing()
    found = fields(inner, 1, (0, 1, 2))
    if 0 not in found or 1 not in found:
        raise Bad("a bind without name or credentials")
    secret = found[1].only()
    if not (secret.is_tag(UNIVERSAL, IA5) or secret.is_tag(UNIVERSAL, OCTETS)):
        raise Bad("credentials of another type")
    password = secret.joined(secret.number)
    if len(password) > 62 or secret.number == IA5 and any(octet > 127 for octet in password):
        raise Bad("no password")
    return Bind(text(found[0], 1, 32), password)
