"""Transport over TCP: the packets of RFC 1006 (TPKT) and the TPDUs of class 0 in them (X.224). Nothing here touches a
socket: octets go in, session PDUs come out."""
from ber import Malformed

CONNECTION_REQUEST, CONNECTION_CONFIRM, DISCONNECT_REQUEST, DATA, ERROR = 0xE0, 0xD0, 0x80, 0xF0, 0x70
TPDU_SIZE, CALLING_SELECTOR, CALLED_SELECTOR, OTHER_CLASSES = 0xC0, 0xC1, 0xC2, 0xC7
SIZE_EXPONENT = 11                  # TPDUs of 2,048 octets are proposed, and taken at most to be put
SMALLEST_EXPONENT, GREATEST_EXPONENT = 7, 13
DATA_HEADER = 3                     # octets in front of what a data TPDU carries
PACKET_HEADER = 4
END_OF_PDU = 0x80
OUR_REFERENCE = b"\0\1"
LONGEST_FIRST = 16_384              # octets of a session PDU before there is an association
NOT_ATTACHED, UNSPECIFIED = 2, 0    # reasons of a disconnection


def packet(tpdu):
    """A TPKT around a TPDU."""
    return b"\3\0" + (len(tpdu) + PACKET_HEADER).to_bytes(2, "big") + tpdu


def control(tpdu):
    """The packet of a TPDU that carries no data: its length octet stands in front."""
    return packet(bytes([len(tpdu)]) + tpdu)


def parameter(code, value):
    return bytes([code, len(value)]) + value


def parameters(octets):
    """The parameters of a TPDU's variable part."""
    found, at = {}, 0
    while at < len(octets):
        if at + 2 > len(octets) or at + 2 + octets[at + 1] > len(octets):
            raise Malformed("a parameter of a TPDU")
        found[octets[at]] = octets[at + 2:at + 2 + octets[at + 1]]
        at += 2 + octets[at + 1]
    return found


def exponent_of(found):
    """The agreed size of TPDUs, as the exponent of 2: ours where the other end has none or a greater one."""
    value = found.get(TPDU_SIZE, bytes([SIZE_EXPONENT]))
    if len(value) != 1 or not SMALLEST_EXPONENT <= value[0] <= GREATEST_EXPONENT:
        raise Malformed("a size of TPDUs")
    return min(SIZE_EXPONENT, value[0])


class Ended(Exception):
    """The other end disconnected, or refused the transport connection."""


class Transport:
    """One transport connection. `send` is called with the octets of a packet."""

    def __init__(self, send):
        self.send = send
        self.come, self.part = bytearray(), bytearray()
        self.open, self.calls = False, False
        self.longest = LONGEST_FIRST           # octets of a session PDU that is taken
        self.most = (1 << SIZE_EXPONENT) - DATA_HEADER
        self.calling = self.called = b""       # the selectors of one who called

    def call(self, calling, called):
        """Asks for the connection."""
        self.calls = True
        named = [parameter(code, it) for code, it in ((CALLING_SELECTOR, calling), (CALLED_SELECTOR, called)) if it]
        self.send(control(bytes([CONNECTION_REQUEST, 0, 0]) + OUR_REFERENCE + b"\0"
                          + parameter(TPDU_SIZE, bytes([SIZE_EXPONENT])) + b"".join(named)))

    def put(self, pdu):
        """Sends a session PDU, in as many TPDUs as it takes."""
        at = 0
        while len(pdu) - at > self.most:
            self.send(packet(b"\2\xF0\0" + pdu[at:at + self.most]))
            at += self.most
        self.send(packet(b"\2\xF0\x80" + pdu[at:]))

    def received(self, octets):
        """The session PDUs that are whole once these octets came."""
        self.come += octets
        found, at = [], 0
        while len(self.come) - at >= PACKET_HEADER:
            size = int.from_bytes(self.come[at + 2:at + 4], "big")
            if self.come[at] != 3 or size < PACKET_HEADER + 3:
                raise Malformed("a TPKT")
            if len(self.come) - at < size:
                break
            pdu = self.tpdu(bytes(self.come[at + PACKET_HEADER:at + size]))
            at += size
            if pdu is not None:
                found.append(pdu)
        del self.come[:at]
        return found

    def tpdu(self, tpdu):
        """Takes one TPDU. The session PDU that it ends, or None."""
        size, kind = tpdu[0], tpdu[1] & 0xF0
        if size >= len(tpdu) or size < 2:
            raise Malformed("the length of a TPDU")
        if kind == DATA:
            return self.data(size, tpdu)
        if kind in (DISCONNECT_REQUEST, ERROR):
            raise Ended
        if size != len(tpdu) - 1 or size < 6:
            raise Malformed("a TPDU that carries more than it may")
        if kind != (CONNECTION_CONFIRM if self.calls else CONNECTION_REQUEST) or self.open:
            raise Malformed(f"the TPDU {kind:02X}")
        found = parameters(tpdu[7:])
        if self.calls:
            self.confirmed(tpdu, found)
        else:
            self.asked(tpdu, found)
        self.open = True
        return None

    def confirmed(self, tpdu, found):
        if tpdu[6] & 0xF0 or tpdu[2:4] != OUR_REFERENCE:
            raise Malformed("a transport connection of another class, or of another reference")
        self.most = (1 << exponent_of(found)) - DATA_HEADER

    def asked(self, tpdu, found):
        others = {it >> 4 for it in found.get(OTHER_CLASSES, b"")}
        if tpdu[6] & 0xF0 and 0 not in others:
            self.send(control(bytes([DISCONNECT_REQUEST]) + tpdu[4:6] + b"\0\0" + bytes([UNSPECIFIED])))
            raise Ended
        exponent = exponent_of(found)
        self.most = (1 << exponent) - DATA_HEADER
        self.calling, self.called = found.get(CALLING_SELECTOR, b""), found.get(CALLED_SELECTOR, b"")
        answered = [parameter(TPDU_SIZE, bytes([exponent]))] if TPDU_SIZE in found else []
        answered += [parameter(it, found[it]) for it in (CALLING_SELECTOR, CALLED_SELECTOR) if it in found]
        self.send(control(bytes([CONNECTION_CONFIRM]) + tpdu[4:6] + OUR_REFERENCE + b"\0" + b"".join(answered)))

    def data(self, size, tpdu):
        if not self.open or size != 2 or tpdu[2] & 0x7F:
            raise Malformed("a data TPDU")
        self.part += tpdu[DATA_HEADER:]
        if len(self.part) > self.longest:
            raise Malformed(f"a session PDU of more than {self.longest} octets")
        if not tpdu[2] & END_OF_PDU:
            return None
        pdu, self.part = bytes(self.part), bytearray()
        return pdu
