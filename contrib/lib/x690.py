"""Elements of the Basic Encoding Rules (X.690): reads any form of them, and writes the definite one."""

import calendar
import re
import time

UNIVERSAL, APPLICATION, CONTEXT = 0, 1, 2
INTEGER, BIT_STRING, OCTET_STRING, OBJECT_IDENTIFIER = (0, 2), (0, 3), (0, 4), (0, 6)
NUMERIC_STRING, PRINTABLE_STRING, TELETEX_STRING, IA5_STRING, UTC_TIME = (0, 18), (0, 19), (0, 20), (0, 22), (0, 23)


class Fault(Exception):
    """Octets that are no element, or not the one that was looked for."""


def utc_seconds(text):
    """The seconds since 1970 of a UTCTime; years 50 to 99 are 1950 to 1999."""
    found = re.fullmatch(r"(\d{10})(\d{2})?(Z|[+-]\d{4})", text)
    if not found:
        raise Fault(f"no UTCTime: {text!r}")
    century = "19" if text >= "5" else "20"
    at = calendar.timegm(time.strptime(f"{century}{found[1]}{found[2] or '00'}", "%Y%m%d%H%M%S"))
    offset = 0 if found[3] == "Z" else int(found[3][1:3]) * 3600 + int(found[3][3:]) * 60
    return at + offset if found[3][0] == "-" else at - offset


class Element:
    """One element: its tag as class and number, whether it is constructed, its contents, and all of its octets."""

    def __init__(self, tag, constructed, contents, whole):
        self.tag, self.constructed, self.contents, self.whole = tag, constructed, contents, whole

    def children(self):
        """The elements inside, in their order."""
        found, at = [], 0
        while at < len(self.contents):
            it, at = read(self.contents, at)
            found.append(it)
        return found

    def only(self):
        """The one element inside an explicit tag."""
        inside = self.children()
        if len(inside) != 1:
            raise Fault(f"{len(inside)} elements where one stands")
        return inside[0]

    def octets(self):
        """The octets of a string, whose segments are joined."""
        return b"".join(it.octets() for it in self.children()) if self.constructed else bytes(self.contents)

    def text(self):
        return self.octets().decode("latin-1")

    def number(self):
        return int.from_bytes(bytes(self.contents), "big", signed=True)

    def bits(self):
        """The bits of a BIT STRING as a text of 0 and 1."""
        if self.constructed:
            return "".join(it.bits() for it in self.children())
        unused, octets = self.contents[0], self.contents[1:]
        all_of_them = "".join(f"{it:08b}" for it in octets)
        return all_of_them[:len(all_of_them) - unused]


def read(octets, at=0):
    """The element at this place, and the place after it."""
    start = at
    try:
        first = octets[at]
        number, at = first & 31, at + 1
        if number == 31:
            number = 0
            while True:
                number, at = number << 7 | octets[at] & 127, at + 1
                if octets[at - 1] < 128:
                    break
        size, at = octets[at], at + 1
        if size == 128:
            end = at
            while bytes(octets[end:end + 2]) != b"\x00\x00":
                end = read(octets, end)[1]
            after = end + 2
        else:
            if size > 128:
                count = size - 128
                size, at = int.from_bytes(octets[at:at + count], "big"), at + count
            end = after = at + size
    except IndexError:
        raise Fault(f"an element is cut off at {start}") from None
    if after > len(octets):
        raise Fault(f"an element is cut off at {start}")
    return Element((first >> 6, number), bool(first & 32), octets[at:end], octets[start:after]), after


def whole(octets):
    """The one element that the octets are."""
    found, after = read(octets)
    if after != len(octets):
        raise Fault(f"octets follow the element, from {after} on")
    return found


def element(tag, octets, constructed=False):
    """An element in the definite form, of a tag number below 31."""
    size = len(octets)
    length = bytes([size]) if size < 128 else size.to_bytes((size.bit_length() + 7) // 8, "big")
    head = bytes([tag[0] << 6 | constructed << 5 | tag[1]])
    return head + (b"" if size < 128 else bytes([128 + len(length)])) + length + octets


def sequence(*parts):
    return element((UNIVERSAL, 16), b"".join(parts), True)


def set_of(*parts):
    return element((UNIVERSAL, 17), b"".join(parts), True)


def tagged(number, *parts):
    """A context tag around other elements."""
    return element((CONTEXT, number), b"".join(parts), True)


def primitive(number, octets):
    """A context tag in place of a primitive type's own."""
    return element((CONTEXT, number), octets)


def integer(value, tag=INTEGER):
    return element(tag, value.to_bytes(value.bit_length() // 8 + 1, "big", signed=True))


def bit_string(bits, tag=BIT_STRING):
    """A text of 0 and 1 as a BIT STRING."""
    unused = -len(bits) % 8
    return element(tag, bytes([unused]) + int(bits.ljust(len(bits) + unused, "0") or "0", 2).to_bytes(
        (len(bits) + 7) // 8, "big"))


def ia5(text):
    return element(IA5_STRING, text.encode("ascii"))


def printable(text):
    return element(PRINTABLE_STRING, text.encode("ascii"))


def object_identifier(*arcs):
    octets = b""
    for arc in (arcs[0] * 40 + arcs[1], *arcs[2:]):
        groups = [arc & 127]
        while arc := arc >> 7:
            groups.append(arc & 127 | 128)
        octets += bytes(reversed(groups))
    return element(OBJECT_IDENTIFIER, octets)
