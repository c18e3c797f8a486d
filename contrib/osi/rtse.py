"""The APDUs of reliable transfer (X.228), the bind of X.411 in them, and the EXTERNAL around a message."""
from typing import NamedTuple

import ber
from ber import Malformed, element, integer
from session import Reference

REQUEST, ACCEPTED, REFUSED, ABORTED = 0xB0, 0xB1, 0xB2, 0xB6
MONOLOGUE, TWO_WAY = 0, 1
DEFAULT_WINDOW = 3
BUSY, CANNOT_RECOVER, VALIDATION_FAILURE, UNACCEPTABLE_MODE = 0, 1, 2, 3      # reasons of an RTORJ
(LOCAL_PROBLEM, INVALID_PARAMETER, UNRECOGNIZED_ACTIVITY, TEMPORARY_PROBLEM, PROTOCOL_ERROR, PERMANENT_PROBLEM,
 USER_ERROR, TRANSFER_COMPLETED) = range(8)                                    # and of an RTAB
ARGUMENT, RESULT, ERROR = 0xB0, 0xB1, 0xB2      # what X.219 puts around a bind's argument, result and error
LONGEST_NAME = 32
LONGEST_PASSWORD = 62
LONGEST_PART = 64                               # octets of BER of each part of a reference (X.225)
LONGEST_ADDITIONAL = 4


class Bind(NamedTuple):
    """A name and simple credentials. Neither is there where NULL stood in place of them."""
    name: bytes = None
    password: bytes = None


class Opening(NamedTuple):
    """An RTORQ or RTOAC: either a bind or the association that is recovered."""
    checkpoint: int
    window: int
    mode: int = MONOLOGUE
    bind: Bind = None
    recovered: Reference = None


# References ------------------------------------------------------------------------------------------------

def part(value, *tags):
    """A part of a reference: whatever string it is, its octets."""
    if value is None:
        return b""
    return ber.string(value, *tags)


def reference_of(values):
    """The reference whose parts stand there in BER, in the session's PDUs."""
    calling, common, additional = values
    if calling is None or common is None:
        raise Malformed("a session connection identifier")
    return Reference(part(calling, ber.OCTET_STRING, ber.TELETEX_STRING), part(common, ber.UTC_TIME),
                     part(additional, ber.OCTET_STRING, ber.TELETEX_STRING))


def reference_parts(reference):
    """The parts of a reference in BER."""
    parts = [element(ber.OCTET_STRING, reference.calling), element(ber.UTC_TIME, reference.common)]
    if reference.additional:
        parts.append(element(ber.TELETEX_STRING, reference.additional))
    if len(parts[0]) > LONGEST_PART or len(parts[1]) > LONGEST_PART or len(parts[-1]) > LONGEST_PART:
        raise Malformed("a reference that the session has no room for")
    return tuple(parts)


def reference_in(content):
    """The reference in the RTORQ or RTOAC of a recovery."""
    found = ber.parts(content)
    if not 2 <= len(found) <= 3 or found[1][0] & ~ber.CONSTRUCTED != ber.UTC_TIME:
        raise Malformed("a reference")
    if found[0][0] & ~ber.CONSTRUCTED not in (ber.OCTET_STRING, ber.TELETEX_STRING, 0x80):
        raise Malformed("a reference")
    additional = ber.joined(*found[2]) if len(found) == 3 else b""
    return Reference(ber.joined(*found[0]), ber.joined(*found[1]), additional)


def reference_content(reference):
    additional = element(0x80, reference.additional) if reference.additional else b""
    return element(ber.OCTET_STRING, reference.calling) + element(ber.UTC_TIME, reference.common) + additional


# Opening ---------------------------------------------------------------------------------------------------

def bind_octets(bind):
    if bind.name is None:
        return element(0x05)
    return element(0xA1, element(0x80, bind.name), element(0xA1, element(ber.IA5_STRING, bind.password)))


def bind_of(octets):
    if octets == element(0x05):
        return Bind()
    named = ber.components(ber.only(0xA1, octets))
    tags = [tag & ~ber.CONSTRUCTED for tag in named]
    name = [ber.joined(tag, it) for tag, it in named.items() if tag & ~ber.CONSTRUCTED == 0x80]
    if tags.count(0x80) != 1 or not 1 <= len(name[0]) <= LONGEST_NAME or 0xA1 not in named:
        raise Malformed("a bind")
    password = ber.string(named[0xA1], ber.IA5_STRING, ber.OCTET_STRING)
    if len(password) > LONGEST_PASSWORD:
        raise Malformed("a password")
    return Bind(name[0], password)


def connection_data(opening, around):
    if opening.recovered is not None:
        return element(0xA1, reference_content(opening.recovered))
    bind = bind_octets(opening.bind)
    return element(0xA0, element(around, bind) if around else bind)


def values(opening):
    """Checkpoint size and window, where they are not the default."""
    size = integer(opening.checkpoint, 0x80) if opening.checkpoint else b""
    return size + (integer(opening.window, 0x81) if opening.window != DEFAULT_WINDOW else b"")


def request(opening, around=None):
    """An RTORQ; `around` is the tag around a bind, where there is one."""
    mode = integer(opening.mode, 0x82) if opening.mode else b""
    return element(REQUEST, values(opening), mode, element(0xA3, connection_data(opening, around)))


def accepted(opening, around=None):
    """An RTOAC."""
    return element(ACCEPTED, values(opening), element(0xA2, connection_data(opening, around)))


def opening_of(octets, tag, around):
    """What an RTORQ or RTOAC says. A bind may have the tag of X.219 around it or not."""
    named = ber.components(ber.only(tag, octets))
    data = named.get(0xA3 if tag == REQUEST else 0xA2)
    if data is None:
        raise Malformed("no connection data")
    kind, content, rest = ber.taken(data)
    if rest or kind not in (0xA0, 0xA1):
        raise Malformed("connection data")
    mode = ber.number(named.get(0x82, b"\0")) if tag == REQUEST else MONOLOGUE
    first = Opening(ber.number(named.get(0x80, b"\0")), ber.number(named.get(0x81, bytes([DEFAULT_WINDOW]))), mode)
    if kind == 0xA1:
        return first._replace(recovered=reference_in(content))
    is_around = around is not None and content[:1] == bytes([around])
    return first._replace(bind=bind_of(ber.only(around, content) if is_around else content))


# Refusals and aborts ---------------------------------------------------------------------------------------

def refused(reason, is_bind, around=ERROR):
    """An RTORJ. That of a bind is an MTABindError: the reason numbers are the same."""
    if is_bind:
        return element(REFUSED, element(0xA1, element(around, integer(reason)) if around else integer(reason)))
    return element(REFUSED, integer(reason, 0x80))


def refusal_of(octets):
    """The reason of an RTORJ. Where there is none it is BUSY: then it is tried again, and nothing is concluded."""
    if octets is None:
        return BUSY
    named = ber.components(ber.only(REFUSED, octets))
    if 0x80 in named:
        return ber.number(named[0x80])
    if 0xA1 not in named:
        return BUSY
    error = named[0xA1]
    return ber.number(ber.only(0x02, ber.only(ERROR, error) if error[:1] == bytes([ERROR]) else error))


def plain_refusal(reason):
    return element(REFUSED, integer(reason, 0x80))


def aborted(reason):
    """An RTAB."""
    return element(ABORTED, integer(reason, 0x80))


def abort_reason(octets):
    """The reason of an RTAB, None where there is no RTAB."""
    if octets is None:
        return None
    named = ber.components(ber.only(ABORTED, octets))
    return ber.number(named.get(0x80, b"\0"))


# The message -----------------------------------------------------------------------------------------------

def wrapper(piece, context):
    """What stands in front of the message that begins with this piece, and behind it: the header of an EXTERNAL, and
    its end where the message has no length of its own."""
    _, count, begins = ber.header(piece)
    if count is None:
        return bytes([0x28, 0x80]) + integer(context) + b"\xA0\x80", b"\0\0\0\0"
    head = integer(context) + b"\xA0" + ber.length(begins + count)
    return b"\x28" + ber.length(len(head) + begins + count) + head, b""


def unwrapped(octets, context):
    """What stands behind the header of the EXTERNAL, and how many octets end it."""
    tag, count, at = ber.header(octets)
    if tag != 0x28:
        raise Malformed("an EXTERNAL was expected")
    ending = 0 if count is not None else 2
    reference, at = reference_at(octets, at)
    if reference is not None and reference != context:
        raise Malformed("a message of another context")
    tag, count, at = ber.header(octets, at)
    if tag not in (0xA0, 0x81):
        raise Malformed("a message in another form")
    return octets[at:], ending if count is not None else ending + 2


def reference_at(octets, at):
    """The indirect reference of an EXTERNAL, None where it has none, and what comes behind the references."""
    found = None
    while octets[at:at + 1] in (b"\x02", b"\x06", b"\x07"):
        begins, ends, behind = ber.extent(octets, at)
        if octets[at] == 0x02:
            found = ber.number(octets[begins:ends])
        at = behind
    return found, at


def message_size(octets):
    """How many octets the message has that begins there, None where it has no length of its own."""
    _, count, begins = ber.header(octets)
    return None if count is None else begins + count
