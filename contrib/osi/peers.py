"""The configuration of a peer: a text of lines, each a key and a value. docs/OSI.md lists the keys."""
import ipaddress
import re
from typing import NamedTuple

import acse
import ber
from acse import Title
from primitives import Address

LONGEST_NAME, LONGEST_PASSWORD, LONGEST_SELECTOR = 32, 62, 128
MOST_CHECKPOINT, MOST_WINDOW, MOST_SECONDS = 2048, 1024, 86_400
LONGEST_FILE = 65_536
APPLICATION_CONTEXTS = {"mts-transfer": "normal", "mts-transfer-protocol": "x410-1984"}


class BadSettings(Exception):
    """What is wrong with a configuration, and in which line."""


class Settings(NamedTuple):
    """What a file says of one peer."""
    path: str
    peer: str                          # the peer's name in our agent's tables
    agent: str = None                  # our agent's name, as the peer's configuration at our side has it
    peer_mta_name: bytes = None        # names and passwords of the bind on the OSI side
    agent_mta_name: bytes = None
    peer_password: bytes = None        # what our agent expects of the peer
    agent_password: bytes = None       # what our agent sends to the peer
    peer_osi_password: bytes = None
    agent_osi_password: bytes = None
    here: Address = Address()
    there: Address = Address()
    peer_addresses: tuple = ()
    application_context: str = "mts-transfer"
    checkpoint: int = None
    window: int = None
    new_references: bool = False       # each session connection has a reference of its own
    null_bind: bool = False            # the peer binds with NULL in place of a name and password
    denies_after_end: bool = False
    takes_unknown: bool = False        # a lane that the map does not have is resumed all the same
    unseen_end: int = 60               # seconds


def word(text):
    if not re.fullmatch(r"[A-Za-z0-9-]{1,32}", text):
        raise BadSettings("a name has 1 to 32 letters, digits or hyphens")
    return text


def ia5(text, most, least=0):
    if not least <= len(text) <= most or not text.isascii():
        raise BadSettings(f"{least} to {most} ASCII characters are expected")
    return text.encode()


def mta_name(text):
    return ia5(text, LONGEST_NAME, 1)


def password(text):
    return ia5(text, LONGEST_PASSWORD)


def octets(text):
    """A selector: as text, or its octets as hexadecimal digits behind `hex:`."""
    try:
        found = bytes.fromhex(text[4:]) if text.startswith("hex:") else text.encode("ascii")
    except ValueError as why:
        raise BadSettings("a selector is ASCII, or hex: and hexadecimal digits") from why
    if not 1 <= len(found) <= LONGEST_SELECTOR:
        raise BadSettings(f"a selector has 1 to {LONGEST_SELECTOR} octets")
    return found


def title(text):
    """The title of an application process: an object identifier, or `hex:` and the element of a Name."""
    if text.startswith("hex:"):
        return octets(text)
    if not re.fullmatch(r"([01]\.[1-3]?\d|2\.\d{1,9})(\.\d{1,9}){0,30}", text):
        raise BadSettings("an AP title is an object identifier, as 2.6.0, or hex: and an element")
    return ber.object_identifier(text)


def qualifier(text):
    return octets(text) if text.startswith("hex:") else ber.integer(counted(text, (1 << 31) - 1))


def counted(text, most):
    if not re.fullmatch(r"0|[1-9]\d{0,9}", text) or int(text) > most:
        raise BadSettings(f"a number from 0 to {most} is expected")
    return int(text)


def checkpoint(text):
    found = counted(text, MOST_CHECKPOINT)
    if found == 1:
        raise BadSettings("0, or 2 and more: the header of a message needs room beside a unit of it")
    return found


def window(text):
    return counted(text, MOST_WINDOW) or 1


def chosen(*words):
    def choose(text):
        if text not in words:
            raise BadSettings(f"one of {', '.join(words)} is expected")
        return text == words[-1]
    return choose


def context(text):
    if text not in APPLICATION_CONTEXTS:
        raise BadSettings(f"one of {', '.join(APPLICATION_CONTEXTS)} is expected")
    return text


def network(text):
    try:
        return ipaddress.ip_network(text, strict=False)
    except ValueError as why:
        raise BadSettings("an address, or a network as 192.0.2.0/24") from why


# Key: the field that it sets, and how its value is read
KEYS = {
    "peer": ("peer", word), "agent": ("agent", word),
    "peer-mta-name": ("peer_mta_name", mta_name), "agent-mta-name": ("agent_mta_name", mta_name),
    "peer-password": ("peer_password", password), "agent-password": ("agent_password", password),
    "peer-osi-password": ("peer_osi_password", password), "agent-osi-password": ("agent_osi_password", password),
    "application-context": ("application_context", context),
    "checkpoint": ("checkpoint", checkpoint), "window": ("window", window),
    "references": ("new_references", chosen("lane", "connection")),
    "bind": ("null_bind", chosen("credentials", "null")),
    "discard-after-end": ("denies_after_end", chosen("put", "deny")),
    "unknown-lane": ("takes_unknown", chosen("busy", "resume")),
    "unseen-end": ("unseen_end", lambda text: counted(text, MOST_SECONDS)),
}
SELECTORS = {"tsel": "transport", "ssel": "session", "psel": "presentation"}


def place_of(key):
    """Whose address a key is of, and its field: of `agent-tsel` for instance."""
    whose, _, name = key.partition("-")
    return {"agent": "here", "peer": "there"}.get(whose), name


def with_address(found, key, text):
    """The fields with one of an address's: None where the key is none of those."""
    side, name = place_of(key)
    if side is None:
        return None
    address = found.get(side, Address())
    if name in SELECTORS:
        return found | {side: address._replace(**{SELECTORS[name]: octets(text)})}
    if name == "ap-title":
        return found | {side: address._replace(title=address.title._replace(process=title(text)))}
    if name == "ae-qualifier":
        return found | {side: address._replace(title=address.title._replace(qualifier=qualifier(text)))}
    if key == "peer-address":
        return found | {"peer_addresses": found.get("peer_addresses", ()) + (network(text),)}
    return None


def with_line(found, key, text):
    if key in KEYS:
        field, read = KEYS[key]
        return found | {field: read(text)}
    added = with_address(found, key, text)
    if added is None:
        raise BadSettings(f"{key} is no key")
    return added


def settings_of(path, text):
    """What a text says. Lines that begin with # say nothing."""
    found, seen = {"path": path}, set()
    for place, line in enumerate(text.split("\n"), 1):
        key, _, value = line.rstrip("\r").partition(" ")
        if not key or key.startswith("#"):
            continue
        try:
            if key in seen and key != "peer-address":
                raise BadSettings(f"{key} stands twice")
            found = with_line(found, key, value)
        except BadSettings as why:
            raise BadSettings(f"{path}: line {place}: {why}") from None
        seen.add(key)
    return whole(Settings(**found) if "peer" in found else None, path)


def whole(settings, path):
    """What is needed stands there."""
    if settings is None:
        raise BadSettings(f"{path}: the peer has no name (peer NAME)")
    if settings.null_bind and settings.peer_password is None:
        raise BadSettings(f"{path}: bind null needs the password that our agent expects (peer-password TEXT)")
    if settings.peer_osi_password is not None and settings.peer_password is None:
        raise BadSettings(f"{path}: peer-osi-password needs peer-password, which our agent expects")
    return settings


def read(path):
    try:
        with open(path, "rb") as file:
            octets_of_file = file.read(LONGEST_FILE + 1)
        if len(octets_of_file) > LONGEST_FILE:
            raise BadSettings(f"{path}: more than {LONGEST_FILE} octets")
        return settings_of(path, octets_of_file.decode("utf-8"))
    except OSError as why:
        raise BadSettings(f"{path}: {why.strerror}") from why
    except UnicodeDecodeError as why:
        raise BadSettings(f"{path}: it is no text") from why


# Which peer calls ------------------------------------------------------------------------------------------

def is_same(said, configured):
    """Whether what is said, where anything can be, is what is configured, where anything is."""
    return said is None or not configured or said == configured


def is_address(said, configured):
    """Whether an end's address is the one that is configured; what is not configured may be anything."""
    title = said.title or (None, None)
    return all(is_same(*it) for it in zip((*said[:3], *title), (*configured[:3], *configured.title)))


def is_from(settings, host):
    return not settings.peer_addresses or any(host in it for it in settings.peer_addresses)


def candidates(peers, calling, called, host):
    """The peers that may call so, from this host."""
    return [it for it in peers if is_from(it, host) and is_address(calling, it.there) and is_address(called, it.here)]


def binds(settings, bind):
    """Whether the name is the peer's."""
    if bind.name is None:
        return settings.null_bind
    return bind.name == (settings.peer_mta_name or settings.peer.encode())
