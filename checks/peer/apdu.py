"""Messages of X.411 for trying transfers: how one is made, and whether octets spell one as far as this peer looks."""
import ber
from ber import IA5, OCTETS, written

TRUNCATED, BAD_TAG, TRAILING = 1, 3, 12
LONGEST = 2_097_152
MOMENT = b"500101000000Z"


def name_of(text):
    """The parts of `C=..;A=..;S=..`."""
    parts = dict(part.split("=", 1) for part in text.split(";"))
    if set(parts) != {"C", "A", "S"}:
        raise SystemExit(f"a name has the parts C, A and S here: {text}")
    return {key: value.encode() for key, value in parts.items()}


def domain(name):
    return written(0x61, written(0x13, name["C"])) + written(0x62, written(0x13, name["A"]))


def or_name(name):
    return written(0x60, written(0x30, domain(name) + written(0xA5, written(0x80, name["S"]))))


def message(origin, recipient, local, content, moment=MOMENT):
    """A message from one name to another, of an unidentified content type and with one element of trace.

    `local`, the local identifier, and `content` are octets."""
    origin, recipient = name_of(origin), name_of(recipient)
    here = written(0x63, domain(origin))
    came = written(0x31, written(0x80, moment) + written(0x82, b"\0"))
    fields = or_name(recipient) + bytes.fromhex("800101 810200A8")
    envelope = (or_name(origin) + written(0x64, here + written(IA5, local)) + bytes.fromhex("460100")
                + written(0x69, written(0x30, here + came)) + written(0xA2, written(0x31, fields)))
    return written(0xA0, written(0x31, envelope) + written(OCTETS, content))


def content_of(size):
    """So many octets, none like its neighbour, so that a piece in a wrong place shows."""
    return b"".join((n * 2654435761 & 2**32 - 1).to_bytes(4, "big") for n in range((size + 3) // 4))[:size]


def fault_of(octets):
    """None where the octets spell one APDU as far as its headers tell, else a kind of fault and its place."""
    try:
        first, end = ber.element(octets, 0, 1)
        if end != len(octets):
            return TRAILING, end
        if first.kind != ber.CONTEXT or first.number > 2 or not first.constructed:
            return BAD_TAG, 0
        walk(first)
    except ber.Bad:
        return TRUNCATED, 0
    return None


def walk(one):
    """Reads every header inside a constructed element."""
    for part in one.inside():
        if part.constructed:
            walk(part)
