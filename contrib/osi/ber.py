"""Elements of X.690, as far as the layers of OSI need them: definite and indefinite lengths, strings in segments."""

DEEPEST = 32           # levels of elements that are read
INDEFINITE = 0x80
CONSTRUCTED = 0x20
INTEGER, OCTET_STRING, OBJECT_IDENTIFIER, UTC_TIME, IA5_STRING, TELETEX_STRING = 0x02, 0x04, 0x06, 0x17, 0x16, 0x14
SEQUENCE, SET = 0x30, 0x31


class Malformed(Exception):
    """Octets that are no PDU of their layer, or one that may not stand where it came."""


# Written ---------------------------------------------------------------------------------------------------

def length(count):
    """The length octets of so many octets, as few as there can be."""
    if count < 128:
        return bytes([count])
    octets = count.to_bytes((count.bit_length() + 7) // 8, "big")
    return bytes([0x80 | len(octets)]) + octets


def element(tag, *contents):
    content = b"".join(contents)
    return bytes([tag]) + length(len(content)) + content


def integer(number, tag=INTEGER):
    return element(tag, number.to_bytes(number.bit_length() // 8 + 1, "big"))


def base_128(arc):
    """The octets of one part of an object identifier."""
    groups = [arc & 127]
    while arc := arc >> 7:
        groups.insert(0, arc & 127 | 128)
    return bytes(groups)


def object_identifier(text, tag=OBJECT_IDENTIFIER):
    first, second, *rest = map(int, text.split("."))
    return element(tag, *map(base_128, [40 * first + second, *rest]))


# Read ------------------------------------------------------------------------------------------------------

def header(octets, at=0):
    """Tag and length of the element at this place, and where its contents begin. The length is None where it is
    indefinite."""
    if at + 2 > len(octets) or octets[at] & 31 == 31:
        raise Malformed("an element's header")
    tag, first, begins = octets[at], octets[at + 1], at + 2
    if first < 128:
        return tag, first, begins
    if first == INDEFINITE:
        if not tag & CONSTRUCTED:
            raise Malformed("a primitive element of indefinite length")
        return tag, None, begins
    ends = begins + first - 128
    if first > 0x84 or ends > len(octets):
        raise Malformed("a length")
    return tag, int.from_bytes(octets[begins:ends], "big"), ends


def extent(octets, at=0, depth=0):
    """Where the contents of the element at this place begin and end, and where the element ends."""
    tag, count, begins = header(octets, at)
    if count is not None:
        if begins + count > len(octets):
            raise Malformed("an element is cut off")
        return begins, begins + count, begins + count
    if depth == DEEPEST:
        raise Malformed("too many levels")
    at = begins
    while octets[at:at + 2] != b"\0\0":
        at = extent(octets, at, depth + 1)[2]
    return begins, at, at + 2


def taken(octets):
    """Tag and contents of the element in front, and what stands behind it."""
    begins, ends, rest = extent(octets)
    return octets[0], octets[begins:ends], octets[rest:]


def parts(octets):
    """Tag and contents of each element, one behind another."""
    found, at = [], 0
    while at < len(octets):
        begins, ends, rest = extent(octets, at)
        found.append((octets[at], octets[begins:ends]))
        at = rest
    return found


def components(octets):
    """The elements by their tags. None may stand twice."""
    found = parts(octets)
    named = dict(found)
    if len(named) != len(found):
        raise Malformed("a component stands twice")
    return named


def only(tag, octets):
    """The contents of the one element that stands there, which has this tag."""
    found, content, rest = taken(octets)
    if rest or found != tag:
        raise Malformed(f"the tag {tag:02X} was expected")
    return content


def number(content):
    """An INTEGER of at least 0."""
    if not 1 <= len(content) <= 8 or content[0] & 0x80:
        raise Malformed("a number")
    return int.from_bytes(content, "big")


def joined(tag, content, depth=0):
    """The octets of a string, whose segments are joined."""
    if not tag & CONSTRUCTED:
        return content
    if depth == DEEPEST:
        raise Malformed("too many levels")
    return b"".join(joined(*part, depth + 1) for part in parts(content))


def string(octets, *tags):
    """The octets of the one string that stands there, which has one of these tags in either form."""
    tag, content, rest = taken(octets)
    if rest or tag & ~CONSTRUCTED not in tags:
        raise Malformed("a string was expected")
    return joined(tag, content)


def identifier_text(content):
    """The text of an object identifier, as 2.1.1."""
    if not content or content[-1] & 0x80 or len(content) > 64:
        raise Malformed("an object identifier")
    arcs, arc = [], 0
    for octet in content:
        arc = arc << 7 | octet & 127
        if not octet & 0x80:
            arcs.append(arc)
            arc = 0
    first = min(arcs[0] // 40, 2)
    return ".".join(map(str, [first, arcs[0] - 40 * first, *arcs[1:]]))
