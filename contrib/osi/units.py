"""The units of a lane, as docs/PROTOCOL.md has them: what our own agent puts and gets on its link."""
import ber
from ber import Malformed, element
from session import Reference

(OPEN, ACCEPT, REJECT, START, DATA, SYNC, SYNC_ACK, END, END_ACK, RESUME, RESUME_ACK, DISCARD, DISCARD_ACK, PLEASE,
 GIVE, EXCEPTION, ABORT, CLOSE, CLOSE_ACK) = range(1, 20)
LONGEST = 2_097_157          # octets of a body
LONGEST_PIECE = 2_097_152
HEADER = 5
# how many numbers of four octets are the body
NUMBERS = {START: 1, SYNC: 1, SYNC_ACK: 1, END: 1, END_ACK: 1, RESUME: 2, RESUME_ACK: 2, DISCARD: 1, DISCARD_ACK: 1,
           GIVE: 0, CLOSE: 0, CLOSE_ACK: 0}


def unit(kind, *numbers, body=b""):
    body = b"".join(it.to_bytes(4, "big") for it in numbers) + body
    return len(body).to_bytes(4, "big") + bytes([kind]) + body


def numbers_of(kind, body):
    """The numbers that are the body of a unit of this kind."""
    if len(body) != 4 * NUMBERS[kind]:
        raise Malformed("a unit of another length")
    return [int.from_bytes(body[at:at + 4], "big") for at in range(0, len(body), 4)]


def size_of(head):
    """The length of the body whose first octets stand there."""
    size = int.from_bytes(head[:4], "big")
    if size > LONGEST or not OPEN <= head[4] <= CLOSE_ACK:
        raise Malformed("no unit")
    return size


def open_unit(name, reference, rtorq):
    content = reference_content(reference)
    return unit(OPEN, body=element(ber.IA5_STRING, name) + element(0x30, content) + rtorq)


def reference_content(reference):
    additional = element(0x80, reference.additional) if reference.additional is not None else b""
    return element(ber.OCTET_STRING, reference.calling) + element(ber.UTC_TIME, reference.common) + additional


def reference_of(content):
    found = ber.parts(content)
    if not 2 <= len(found) <= 3:
        raise Malformed("a reference")
    additional = ber.joined(*found[2]) if len(found) == 3 else None
    return Reference(ber.joined(*found[0]), ber.joined(*found[1]), additional)


def read_open(body):
    """Name, reference and RTORQ of an Open."""
    found = ber.parts(body)
    if len(found) != 3 or found[1][0] != 0x30:
        raise Malformed("an Open")
    return ber.joined(*found[0]), reference_of(found[1][1]), element(*found[2])


class Reader:
    """Units of the octets that come."""

    def __init__(self):
        self.come = bytearray()

    def received(self, octets):
        """Kind and body of each unit that is whole once these octets came."""
        self.come += octets
        found, at = [], 0
        while len(self.come) - at >= HEADER:
            size = size_of(self.come[at:at + HEADER])
            if len(self.come) - at < HEADER + size:
                break
            found.append((self.come[at + 4], bytes(self.come[at + HEADER:at + HEADER + size])))
            at += HEADER + size
        del self.come[:at]
        return found
