"""Message identifiers of mail and IPM identifiers of X.420, each as the other."""
import base64
import hashlib
import re

from mail import addresses
from mail.names import IpmIdentifier
from mail.refusals import Refused

LONGEST_LOCAL = 64  # characters of a user relative identifier
DOMAIN = "MHS"  # of an identifier that is made of one of X.400
OF_MAIL = re.compile(r"[^\s<>@]+@[^\s<>@]+|\"[^<>]*\"@[^\s<>@]+")
NOT_PRINTABLE = re.compile(r"[^\x21-\x7e]")


def digest_of(text, most=32):
    """Letters and digits that stand for a text, as good as never for another one too."""
    octets = text if isinstance(text, bytes) else text.encode("utf-8", "surrogateescape")
    return base64.b32encode(hashlib.sha256(octets).digest()).decode("ascii").rstrip("=")[:most]


def of_x400(text):
    """The IPM identifier in an identifier of the form "LOCAL*/C=GB/../"@MHS, or None."""
    found = re.fullmatch(r'("?)(.*?)\*(/.*/)?\1@' + DOMAIN, text, re.I | re.S)
    if not found:
        return None
    local = re.sub(r"\\(.)", r"\1", found[2])
    try:
        user = addresses.name_of_text(re.sub(r"\\(.)", r"\1", found[3])) if found[3] else None
    except Refused:
        return None
    is_printable = len(local) <= LONGEST_LOCAL and set(local) <= addresses.p1.PRINTABLE
    return IpmIdentifier(local, user) if is_printable else None


def ipm_identifier(text):
    """A message identifier, without its brackets, as an IPM identifier, and whether it can be made of that again."""
    known = of_x400(text)
    if known is not None:
        return known, True
    local = addresses.printable_of(NOT_PRINTABLE.sub("?", text))
    if len(local) <= LONGEST_LOCAL and OF_MAIL.fullmatch(text) and not NOT_PRINTABLE.search(text):
        return IpmIdentifier(local), True
    return IpmIdentifier(digest_of(text)), False


def message_id(identifier):
    """An IPM identifier as a message identifier, without its brackets."""
    text = addresses.ascii_of(identifier.local)
    is_mail = identifier.user is None and OF_MAIL.fullmatch(text) and not NOT_PRINTABLE.search(text)
    if is_mail and addresses.printable_of(text) == identifier.local and of_x400(text) is None:
        return text
    user = addresses.text_of(identifier.user) if identifier.user else ""
    return f"{addresses.local_part(f'{identifier.local}*{user}')}@{DOMAIN}"
