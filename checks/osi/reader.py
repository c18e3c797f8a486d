"""Reads a connection that a relay wrote down, by docs/OSI.md alone: reader.py TRACE. It prints a line for each session
PDU, and ends with 1 at what it cannot read. It shares no code with the bridge; but it was written by the same hand."""
import sys

PLAIN = {0x0D: "CONNECT", 0x0E: "ACCEPT", 0x0C: "REFUSE", 0x09: "FINISH", 0x0A: "DISCONNECT", 0x19: "ABORT",
         0x15: "GIVE", 0x16: "GIVE ACK", 0x02: "PLEASE"}
BEHIND = {0x2D: "START", 0x31: "SYNC", 0x32: "SYNC ACK", 0x29: "END", 0x2A: "END ACK", 0x1D: "RESUME",
          0x39: "DISCARD", 0x3A: "DISCARD ACK", 0x30: "EXCEPTION", 0x01: "DATA"}
WORDS = {0xB0: "RTORQ", 0xB1: "RTOAC", 0xB2: "RTORJ", 0xB6: "RTAB"}


class Unread(Exception):
    pass


def streams(path):
    """What each side sent."""
    found, way = {"O": b"", "I": b""}, None
    with open(path, encoding="ascii") as file:
        for line in file:
            if line.strip() in found:
                way = line.strip()
            else:
                found[way] += bytes.fromhex(line.split(" ", 1)[1])
    return found


def packets(octets):
    while octets:
        if octets[:2] != b"\x03\x00" or len(octets) < 4:
            raise Unread("no TPKT")
        size = octets[2] * 256 + octets[3]
        if size > len(octets):
            raise Unread("a packet is cut off")
        yield octets[4:size]
        octets = octets[size:]


def session_pdus(octets):
    """What the transport carries: the session PDUs of one direction."""
    first, joined = True, b""
    for tpdu in packets(octets):
        if first:
            if tpdu[1] not in (0xE0, 0xD0) or tpdu[0] != len(tpdu) - 1:
                raise Unread("neither CR nor CC")
            first = False
            continue
        if tpdu[:2] != b"\x02\xF0":
            raise Unread(f"the TPDU {tpdu[:3].hex()}")
        joined += tpdu[3:]
        if tpdu[2] == 0x80:
            yield joined
            joined = b""
    if joined:
        raise Unread("a session PDU without end")


def parameters(octets):
    found = []
    while octets:
        code, size, at = octets[0], octets[1], 2
        if size == 0xFF:
            size, at = octets[2] * 256 + octets[3], 4
        if at + size > len(octets):
            raise Unread("a parameter is cut off")
        found.append((code, octets[at:at + size]))
        octets = octets[at + size:]
    return found


def one(octets):
    """Tag, contents and rest of the element in front, of either form of length."""
    tag, size, at = octets[0], octets[1], 2
    if size == 0x80:
        rest, inside = octets[2:], []
        while rest[:2] != b"\0\0":
            _, _, after = one(rest)
            inside.append(rest[:len(rest) - len(after)])
            rest = after
        return tag, b"".join(inside), rest[2:]
    if size > 0x80:
        at = 2 + size - 0x80
        size = int.from_bytes(octets[2:at], "big")
    if at + size > len(octets):
        raise Unread("an element is cut off")
    return tag, octets[at:at + size], octets[at + size:]


def every(octets):
    found = []
    while octets:
        tag, inside, octets = one(octets)
        found.append((tag, inside))
    return found


def inside(octets, *path):
    """The contents of what stands below these tags."""
    for tag in path:
        named = [content for at, content in every(octets) if at == tag]
        if len(named) != 1:
            raise Unread(f"{tag:02X} stands {len(named)} times")
        octets = named[0]
    return octets


def text_of(tag, octets):
    """A string, whose segments are joined."""
    return b"".join(text_of(*it) for it in every(octets)) if tag & 0x20 else octets


def value(octets, context):
    """The presentation data value of a context."""
    found = every(inside(octets, 0x61, 0x30))
    numbers = [content for tag, content in found if tag == 0x02]
    if numbers != [bytes([context])]:
        raise Unread("another context")
    return inside(octets, 0x61, 0x30, 0xA0)


def rtse_of(apdu):
    """The APDU of RTSE in one of association control: its name, its tag and contents."""
    held = inside(apdu, 0xBE, 0x28)
    tag, content, rest = one(inside(held, 0xA0))
    if rest or tag not in WORDS:
        raise Unread("no APDU of RTSE")
    return WORDS[tag], content


def bind_of(content, data, around):
    named = dict(every(content))
    tag, asked, _ = one(named[data])
    if tag == 0xA1:
        return "recover " + b" ".join(it for _, it in every(asked)).decode("latin-1")
    found = dict(every(inside(asked, around, 0xA1)))
    return f"bind {found[0x80].decode('latin-1')}"


class Reading:
    """One direction. Numbers of checkpoints and activities are followed."""

    def __init__(self, way):
        self.way, self.count, self.messages, self.octets, self.point = way, 0, 0, b"", 0

    def pdu(self, octets):
        if octets[:2] == b"\x01\x00" and len(octets) > 2:
            return self.behind(octets[2:])
        [(code, content)] = parameters(octets)
        named = dict(parameters(content))
        user = named.get(0xC1) or named.get(0xC2)
        text = PLAIN.get(code)
        if text is None:
            raise Unread(f"the session PDU {code:02X}")
        does = getattr(self, "on_" + text.lower().replace(" ", "_"), None)
        return text + (does(user, named) if does else "")

    def on_connect(self, user, named):
        item = dict(parameters(named[0x05]))
        if item[0x16] != b"\x02" or named[0x14] != b"\x02\x49":
            raise Unread("another version, or other functional units")
        normal = inside(user, 0x31, 0xA2)
        held = [content for tag, content in every(normal) if tag == 0x61]
        aarq = inside(b"\x61" + length(held[0]), 0x61, 0x30, 0xA0, 0x60)
        word, content = rtse_of(aarq)
        references = dict(parameters(named[0x01]))
        return f" {word} {bind_of(content, 0xA3, 0xB0)}, of {text_of(*one(references[0x0A])[:2]).decode('latin-1')}"

    def on_accept(self, user, named):
        normal = inside(user, 0x31, 0xA2)
        if {dict(every(it))[0x80] for _, it in every(inside(normal, 0xA5))} != {b"\0"}:
            raise Unread("a context is refused")
        held = inside(normal, 0x61, 0x30, 0xA0, 0x61)
        word, content = rtse_of(held)
        return f" {word} {bind_of(content, 0xA2, 0xB1)}"

    def on_refuse(self, user, named):
        reason = named[0x32]
        if reason[:1] != b"\x02":
            return f" reason {reason[0]:02X}"
        word, content = rtse_of(inside(reason[1:], 0x30, 0x61, 0x30, 0xA0, 0x61))
        return f" {word} {content.hex()}"

    def on_abort(self, user, named):
        word, content = rtse_of(inside(user, 0xA0, 0x61, 0x30, 0xA0, 0x64))
        return f" {word} reason {inside(content, 0x80)[0]}"

    def on_finish(self, user, named):
        return f" RLRQ {inside(value(user, 1), 0x62).hex()}"

    def on_disconnect(self, user, named):
        return f" RLRE {inside(value(user, 1), 0x63).hex()}"

    def on_please(self, user, named):
        return f" priority {inside(value(user, 3), 0x02).hex()}"

    def behind(self, octets):
        text = BEHIND.get(octets[0])
        if text is None:
            raise Unread(f"the session PDU 01 00 {octets[0]:02X}")
        if text == "DATA":
            tag, content, _ = one(value(octets[2:], 3))
            self.octets += text_of(tag, content)
            return f"DATA {len(text_of(tag, content))}"
        [(_, content)] = parameters(octets)
        return text + self.numbered(text, dict(parameters(content)))

    def numbered(self, text, named):
        if text in ("START", "RESUME"):
            self.octets, self.point = b"", 0
            if text == "RESUME":
                link = dict(parameters(named[0x21]))
                self.point = int(link[0x2A])
                return f" {named[0x29].hex()}, {link[0x29].hex()} behind {self.point}"
            return f" {named[0x29].hex()}"
        if text in ("SYNC", "END"):
            point = int(named[0x2A])
            if point != self.point + 1:
                raise Unread(f"checkpoint {point} behind {self.point}")
            self.point = point
            return f" {point}" + (self.message() if text == "END" else "")
        return f" {int(named[0x2A])}" if 0x2A in named else ""

    def message(self):
        """The message that the RTTRs spell, where they began on this connection."""
        if self.octets[:1] != b"\x28":
            return ", resumed"
        tag, content, rest = one(self.octets)
        if rest or inside(content, 0x02) != b"\x05":
            raise Unread("no EXTERNAL of context 5")
        held = every(inside(content, 0xA0))
        if len(held) != 1 or held[0][0] & 0xE0 != 0xA0:
            raise Unread("no APDU of X.411")
        self.messages += 1
        return f", an APDU {held[0][0]:02X} of {len(held[0][1])} octets"


def length(content):
    """A length and these contents."""
    if len(content) < 128:
        return bytes([len(content)]) + content
    return b"\x82" + len(content).to_bytes(2, "big") + content


def main(path):
    count = messages = 0
    for way, octets in streams(path).items():
        reading = Reading(way)
        try:
            for pdu in session_pdus(octets):
                print(way, reading.pdu(pdu))
                count += 1
        except (Unread, KeyError, IndexError, ValueError) as why:
            print(f"{way}: {type(why).__name__} {why}")
            sys.exit(1)
        messages += reading.messages
    print(f"{count} session PDUs and {messages} messages are read")


if __name__ == "__main__":
    main(*sys.argv[1:])
