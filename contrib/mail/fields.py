"""Fields of mail (RFC 5322, RFC 2047), read whatever they have, and written in order."""
import datetime
import email.errors
import email.header
import email.utils
import re
import time

import x690 as ber

FIRST_YEAR, LAST_YEAR = 1950, 2049  # of a UTCTime
LONGEST_LINE = 76
ATOM = re.compile(r"[A-Za-z0-9!#$%&'*+/=?^_`{|}~ -]+")
MESSAGE_ID = re.compile(r'<\s*((?:"(?:[^"\\]|\\.)*"|[^<>"\s])+)\s*>')


def plain(text):
    """A text in one line, without characters that a terminal or a field acts on."""
    return "".join(it if it.isprintable() else " " for it in text)


def as_text(raw):
    """The text of a field whose octets the parser kept as they are."""
    octets = raw.encode("utf-8", "surrogateescape")
    try:
        return octets.decode("utf-8")
    except UnicodeDecodeError:
        return octets.decode("latin-1")


def decoded_piece(octets, charset):
    if isinstance(octets, str):
        return octets
    try:
        return octets.decode(charset or "ascii", "replace")
    except (LookupError, ValueError):
        return octets.decode("latin-1")


def decoded(text):
    """A text with its encoded words (RFC 2047) as what they stand for."""
    if "=?" not in text:
        return plain(text)
    try:
        pieces = email.header.decode_header(text)
    except (email.errors.HeaderParseError, ValueError):
        return plain(text)
    return plain("".join(decoded_piece(*it) for it in pieces))


def fields_of(message):
    """Names and values of a message's fields, each in one line."""
    return [(name, re.sub(r"\s*[\r\n]+\s*", " ", as_text(str(value))).strip())
            for name, value in message.raw_items()]


# ---- addresses


class Mailbox:
    """An address with its display name and comments. One that is a group's name alone has no address."""

    def __init__(self, address, display="", comments=()):
        self.address, self.display, self.comments = address, display, list(comments)


def after_quoted(text, at):
    """The place after a quoted string that begins here."""
    end = at + 1
    while end < len(text) and text[end] != '"':
        end += 2 if text[end] == "\\" else 1
    return min(end + 1, len(text))


def after_comment(text, at):
    """The place after a comment, with those inside it, that begins here."""
    depth, end = 0, at
    while end < len(text):
        depth += {"(": 1, ")": -1}.get(text[end], 0)
        end += 2 if text[end] == "\\" else 1
        if depth == 0:
            break
    return min(end, len(text))


def tokens(text):
    """Pieces of a field with addresses: quoted strings, comments, and single characters."""
    at = 0
    while at < len(text):
        end = after_quoted(text, at) if text[at] == '"' else after_comment(text, at) if text[at] == "(" else at + 1
        yield text[at:end]
        at = end


def unquoted(phrase):
    """A phrase without its quotes."""
    return re.sub(r'"((?:[^"\\]|\\.)*)"', lambda found: re.sub(r"\\(.)", r"\1", found[1]), phrase)


class _Item:
    """One address as its pieces come."""

    def __init__(self):
        self.phrase, self.angle, self.comments, self.is_inside = [], None, [], False

    def take(self, piece):
        if piece == "<" and self.angle is None:
            self.is_inside, self.angle = True, []
        elif piece == ">" and self.is_inside:
            self.is_inside = False
        elif piece.startswith("(") and len(piece) > 1:
            self.comments.append(decoded(piece[1:-1]))
        elif self.is_inside:
            self.angle.append(piece)
        else:
            self.phrase.append(piece)

    def mailbox(self):
        phrase = "".join(self.phrase).strip()
        if self.angle is None:
            # who types /C=GB/A=GOLD 400/S=BELL/@.. mostly forgets the quotes
            address = phrase if phrase.startswith("/") else "".join(it if it.startswith('"') else it.strip()
                                                                    for it in self.phrase)
            return Mailbox(address, "", self.comments) if phrase else None
        # a source route stands before the address
        address = re.sub(r"^@[^:]*:", "", "".join(self.angle).strip())
        return Mailbox(address, decoded(unquoted(phrase)).strip(), self.comments)


def mailboxes(text):
    """The addresses of a field. The name of a group without a member is one without an address."""
    found, item, group = [], _Item(), None

    def end():
        nonlocal item
        made, comments, item = item.mailbox(), item.comments, _Item()
        if made is not None:
            found.append(made)
        return comments

    for piece in tokens(text):
        if piece in (",", ";") and not item.is_inside:
            comments = end()
            if piece == ";" and group is not None and group[1] == len(found):
                found.append(Mailbox(None, group[0], comments))
            group = None if piece == ";" else group
        elif piece == ":" and not item.is_inside and item.angle is None:
            group = (decoded(unquoted("".join(item.phrase))).strip(), len(found))
            item = _Item()
        else:
            item.take(piece)
    end()
    return found


def word_text(text):
    """A display name as a field has it: an atom, a quoted string, or encoded words."""
    if not text.isascii():
        return encoded_words(text)
    return text if ATOM.fullmatch(text) and "=?" not in text else '"' + re.sub(r'(["\\])', r"\\\1", text) + '"'


def comment_text(text):
    return "(" + re.sub(r"([()\\])", r"\\\1", text) + ")" if text.isascii() else f"({encoded_words(text)})"


def mailbox_text(box):
    """An address as a field has it."""
    comments = "".join(f" {comment_text(it)}" for it in box.comments)
    if box.address is None:
        return f"{word_text(box.display)}:{comments} ;"
    return (f"{word_text(box.display)} <{box.address}>" if box.display else box.address) + comments


# ---- identifiers and moments


def message_ids(text):
    """The message identifiers of a field, without their brackets."""
    return MESSAGE_ID.findall(text)


def utc_time(text):
    """The moment of a date (RFC 5322) as a UTCTime; None where it is none, or no UTCTime has it."""
    try:
        moment = email.utils.parsedate_to_datetime(text)
        moment = moment if moment.tzinfo else moment.replace(tzinfo=datetime.timezone.utc)
        moment = moment.astimezone(datetime.timezone.utc)
    except (ValueError, TypeError, IndexError, OverflowError, AttributeError):
        return None
    return moment.strftime("%y%m%d%H%M%SZ") if FIRST_YEAR <= moment.year <= LAST_YEAR else None


def date_text(seconds):
    """Seconds since 1970 as a date."""
    return email.utils.format_datetime(datetime.datetime.fromtimestamp(seconds, datetime.timezone.utc))


def utc_seconds(utc):
    """A UTCTime as seconds since 1970; 0 for one that is none."""
    try:
        return ber.utc_seconds(utc)
    except (ber.Fault, ValueError, OverflowError):
        return 0


def now_utc(seconds=None):
    return time.strftime("%y%m%d%H%M%SZ", time.gmtime(seconds))


# ---- writing


def encoded_words(text):
    """A text as encoded words, of 75 characters each at most."""
    words, piece = [], ""
    for character in text:
        if len((piece + character).encode("utf-8")) > 42:
            words.append(piece)
            piece = ""
        piece += character
    return " ".join(email.header.Header(it, "utf-8", maxlinelen=200).encode() for it in [*words, piece] if it)


def unstructured(text):
    """A text as the value of a field without a structure."""
    text = plain(text).strip()
    is_as_it_is = text.isascii() and "=?" not in text and all(len(it) < 900 for it in text.split(" "))
    return text if is_as_it_is else encoded_words(text)


def folded(name, value):
    """A field, folded where it has spaces."""
    lines, line = [], f"{name}:"
    for word in value.split(" "):
        if len(line) + 1 + len(word) > LONGEST_LINE and line.strip() and line != f"{name}:" and word:
            lines.append(line)
            line = ""
        line += f" {word}"
    return "\n".join([*lines, line])
