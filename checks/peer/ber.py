"""Elements of X.690, as units need them. Every form of length is read, and the shortest is written."""

UNIVERSAL, APPLICATION, CONTEXT = 0, 1, 2
INTEGER, OCTETS, NULL, IA5, TIME, SEQUENCE, SET = 2, 4, 5, 22, 23, 16, 17
DEEPEST = 16


class Bad(Exception):
    """The octets are not what is to stand there."""


class Element:
    """One element: its class, tag number, whether it is constructed, and its contents octets."""

    def __init__(self, kind, number, constructed, contents, depth):
        self.kind, self.number, self.constructed = kind, number, constructed
        self.contents, self.depth = contents, depth

    def is_tag(self, kind, number):
        return (self.kind, self.number) == (kind, number)

    def inside(self):
        """The elements within a constructed one, in their order."""
        if not self.constructed:
            raise Bad("a constructed element was expected")
        return elements(self.contents, self.depth + 1)

    def only(self):
        """The one element within an explicit tag."""
        found = self.inside()
        if len(found) != 1:
            raise Bad("an explicit tag holds exactly one element")
        return found[0]

    def integer(self, most=2**32 - 1):
        octets = bytes(self.contents)
        if self.constructed or not 1 <= len(octets) <= 8:
            raise Bad("an integer was expected")
        if len(octets) > 1 and (octets[0], octets[1] >> 7) in ((0, 0), (255, 1)):
            raise Bad("an integer with nine equal first bits")
        value = int.from_bytes(octets, "big", signed=True)
        if not 0 <= value <= most:
            raise Bad("an integer out of its range")
        return value

    def joined(self, own=OCTETS):
        """The octets of a string, which may stand in segments."""
        if not self.constructed:
            return bytes(self.contents)
        parts = []
        for part in self.inside():
            if part.kind != UNIVERSAL or part.number not in (OCTETS, own):
                raise Bad("a segment of another tag")
            parts.append(part.joined(own))
        return b"".join(parts)


def header(octets, at):
    """Class, tag number, form and length of the element at `at`, and where its contents begin.

    The length is None where it is indefinite."""
    try:
        first = octets[at]
        kind, constructed, number = first >> 6, bool(first & 32), first & 31
        at += 1
        if number == 31:
            number, start = 0, at
            while True:
                part = octets[at]
                number, at = number << 7 | part & 127, at + 1
                if part < 128:
                    break
            if octets[start] == 128 or number < 31 or at - start > 4:
                raise Bad("a tag number in a wrong form")
        length = octets[at]
        at += 1
        if length == 128:
            if not constructed:
                raise Bad("an indefinite length of a primitive element")
            return kind, number, constructed, None, at
        if length > 128:
            count = length - 128
            if count > 8:
                raise Bad("a length of more than eight octets")
            if at + count > len(octets):
                raise Bad("cut off in a length")
            length, at = int.from_bytes(octets[at:at + count], "big"), at + count
        return kind, number, constructed, length, at
    except IndexError:
        raise Bad("cut off in a header") from None


def element(octets, at, depth):
    """The element at `at`, and where the next one begins."""
    if depth > DEEPEST:
        raise Bad("too deep")
    kind, number, constructed, length, at = header(octets, at)
    if length is None:
        end = at
        while bytes(octets[end:end + 2]) != b"\0\0":
            _, end = element(octets, end, depth + 1)
        return Element(kind, number, constructed, octets[at:end], depth), end + 2
    if at + length > len(octets):
        raise Bad("cut off in the contents")
    return Element(kind, number, constructed, octets[at:at + length], depth), at + length


def elements(octets, depth=1):
    """The elements that follow one another in these octets."""
    found, at = [], 0
    while at < len(octets):
        one, at = element(octets, at, depth)
        found.append(one)
    return found


def written(tag, contents):
    """An element of one identifier octet with a shortest definite length."""
    size = len(contents)
    if size < 128:
        return bytes((tag, size)) + contents
    count = (size.bit_length() + 7) // 8
    return bytes((tag, 128 + count)) + size.to_bytes(count, "big") + contents


def written_integer(tag, value):
    return written(tag, value.to_bytes(value.bit_length() // 8 + 1, "big"))
