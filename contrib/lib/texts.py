"""Character sets of X.420: general text of the parts of ISO 8859, and Teletex strings (T.61), read and written."""
import re
import unicodedata

# the right halves of ISO 8859: part, number in the International Register of Coded Character Sets, and the final octet
# of the escape sequence that designates it as G1
PARTS = ((1, 100, "A"), (2, 101, "B"), (3, 109, "C"), (4, 110, "D"), (5, 144, "L"), (6, 127, "G"), (7, 126, "F"),
         (8, 138, "H"), (9, 148, "M"), (10, 157, "V"), (13, 179, "Y"), (14, 199, "_"), (15, 203, "b"), (16, 226, "f"))
OF_NUMBER = {number: f"iso8859-{part}" for part, number, _ in PARTS}
OF_FINAL = {ord(final): f"iso8859-{part}" for part, _, final in PARTS}
CONTROLS, ASCII = 1, 6  # numbers of the sets of controls and of the left half
ESCAPE = re.compile(rb"\x1b[\x20-\x2f]+[\x30-\x7e]")
DESIGNATES_G1 = b"\x1b-"
INSTEAD = "?"  # of a character that a set does not have


def ends_as_crlf(text):
    """The text with CR LF at each end of a line."""
    return text.replace("\r\n", "\n").replace("\r", "\n").replace("\n", "\r\n")


# ---- general text


def general(text):
    """A text in the first part of ISO 8859 that has all of its characters: the numbers of its sets, and its octets, in
    which the right half is designated where it is used. None where no part has them all."""
    if text.isascii():
        return [CONTROLS, ASCII], text.encode("ascii")
    for part, number, final in PARTS:
        try:
            octets = text.encode(f"iso8859-{part}")
        except UnicodeEncodeError:
            continue
        if not re.search(rb"[\x80-\x9f]", octets):  # the other set of controls is not among them
            return [CONTROLS, ASCII, number], DESIGNATES_G1 + final.encode("ascii") + octets
    return None


def of_general(numbers, octets):
    """The text of a GeneralString of these sets. Right halves are those of the first number that is a part of ISO 8859,
    until an escape sequence designates others."""
    codec = next((OF_NUMBER[it] for it in numbers if it in OF_NUMBER), "iso8859-1")
    made, at = [], 0
    for found in ESCAPE.finditer(octets):
        made.append(octets[at:found.start()].decode(codec, "replace"))
        if found[0].startswith(DESIGNATES_G1):
            codec = OF_FINAL.get(found[0][-1], codec)
        at = found.end()
    return "".join(made) + octets[at:].decode(codec, "replace")


# ---- Teletex

# octets of T.61 that are a character by themselves; letters of the left half are those of ASCII
ALONE = dict(zip(
    b"\xa1\xa2\xa3\xa4\xa5\xa6\xa7\xa8\xab\xb0\xb1\xb2\xb3\xb4\xb5\xb6\xb7\xb8\xbb\xbc\xbd\xbe\xbf"
    b"\xe0\xe1\xe2\xe3\xe4\xe6\xe7\xe8\xe9\xea\xeb\xec\xed\xee\xef"
    b"\xf0\xf1\xf2\xf3\xf4\xf5\xf6\xf7\xf8\xf9\xfa\xfb\xfc\xfd\xfe",
    "¡¢£$¥#§¤«°±²³×µ¶·÷»¼½¾¿ΩÆĐªĦĲĿŁØŒºÞŦŊŉĸæđðħıĳŀłøœßþŧŋ"))
# octets that stand before a letter, and the mark that Unicode has after it
MARKS = dict(zip(b"\xc1\xc2\xc3\xc4\xc5\xc6\xc7\xc8\xc9\xca\xcb\xcd\xce\xcf",
                 "\u0300\u0301\u0302\u0303\u0304\u0306\u0307\u0308\u0308\u030a\u0327\u030b\u0328\u030c"))
OF_CHARACTER = {character: octet for octet, character in ALONE.items() if character not in "$#"}
OF_MARK = {mark: octet for octet, mark in MARKS.items() if octet != 0xC9}


def teletex_of(character):
    """The octets of a character, or None."""
    if character.isascii():
        return character.encode("ascii")
    if character in OF_CHARACTER:
        return bytes([OF_CHARACTER[character]])
    letter, *marks = unicodedata.normalize("NFD", character)
    if len(marks) == 1 and marks[0] in OF_MARK and letter.isascii():
        return bytes([OF_MARK[marks[0]]]) + letter.encode("ascii")
    return None


def teletex(text):
    """The octets of a text as a TeletexString, and whether T.61 has all of its characters: a question mark stands for
    one that it has not."""
    octets = [teletex_of(it) for it in unicodedata.normalize("NFC", text)]
    return b"".join(INSTEAD.encode("ascii") if it is None else it for it in octets), None not in octets


def of_teletex(octets):
    """The text of a TeletexString. Escape sequences are passed over, and an octet without a meaning is U+FFFD."""
    made, mark = [], ""
    for octet in ESCAPE.sub(b"", octets):
        if octet in MARKS:
            made.append(mark and "\ufffd")
            mark = MARKS[octet]
            continue
        character = chr(octet) if octet < 0x80 else ALONE.get(octet, "\ufffd")
        made.append(unicodedata.normalize("NFC", character + mark))
        mark = ""
    return "".join(made) + (mark and "\ufffd")
