"""Pieces of a mail that was longer than an APDU may be: which messages are some, and the mail that they join to."""
import re

from mail.bodies import File
from mail.identifiers import digest_of
from mail.to_mail import read_content

LINE = re.compile(r'Content-Type: message/partial; id="([^"]{1,200})"; number=(\d{1,4}); total=(\d{1,4})')
MOST = 100


class Piece:
    """A piece: of which mail it is, its number from 1, of how many, and its octets."""

    def __init__(self, key, number, total, octets):
        self.key, self.number, self.total, self.octets = key, number, total, octets


def piece_of(found):
    """The piece that a message is, or None."""
    read = read_content(found.content)
    if not isinstance(read, tuple) or len(read[1]) != 1 or not isinstance(read[1][0], File):
        return None
    part = read[1][0]
    told = next((it for it in map(LINE.fullmatch, part.lines) if it), None)
    if told is None or not 1 <= int(told[2]) <= int(told[3]) <= MOST:
        return None
    return Piece(digest_of(f"{found.originator.normal()} {told[1]}"), int(told[2]), int(told[3]), part.data)


class Group:
    """The pieces of one mail that a mailbox has so far, each with its entry."""

    def __init__(self, total):
        self.total, self.entries, self.pieces = total, [], {}

    def add(self, entry, piece):
        self.entries.append(entry)
        self.pieces[piece.number] = piece.octets

    def is_whole(self):
        return set(self.pieces) == set(range(1, self.total + 1))

    def octets(self):
        return b"".join(self.pieces[it] for it in sorted(self.pieces))
