"""The PDUs of the session protocol (X.225, version 2) that RTSE uses: half-duplex, minor synchronize, activity
management and exceptions, with basic concatenation and without segmenting."""
from typing import NamedTuple

from ber import Malformed

# Codes of PDUs: category 0, which stand in front of others; category 1, alone; category 2, behind one of category 0
GIVE_TOKENS, PLEASE_TOKENS = 1, 2
ALONE = {13: "connect", 14: "accept", 12: "refuse", 9: "finish", 10: "disconnect", 25: "abort", 26: "abort_accept",
         21: "give", 22: "give_ack"}
BEHIND = {1: "data", 49: "minor", 50: "minor_ack", 45: "start", 29: "resume", 41: "end", 42: "end_ack",
          25: "interrupt", 26: "interrupt_ack", 57: "discard", 58: "discard_ack", 48: "exception", 0: "exception"}
CODES_ALONE = {name: code for code, name in ALONE.items()}
CODES_BEHIND = {name: code for code, name in BEHIND.items() if code}

# Codes of parameters and groups of parameters
CONNECTION_IDENTIFIER, CONNECT_ITEM, LINKING = 1, 5, 33
CALLED_REFERENCE, CALLING_REFERENCE, COMMON_REFERENCE, ADDITIONAL_REFERENCE = 9, 10, 11, 12
TOKENS, TRANSPORT_DISCONNECT, PROTOCOL_OPTIONS, REQUIREMENTS, TSDU_SIZE, VERSION = 16, 17, 19, 20, 21, 22
TOKEN_SETTING, ACTIVITY, SERIAL, REASON, CALLING_SELECTOR, CALLED_SELECTOR = 26, 41, 42, 50, 51, 52
USER_DATA, EXTENDED_USER_DATA = 193, 194
GROUPS = (CONNECTION_IDENTIFIER, CONNECT_ITEM, LINKING)

HALF_DUPLEX, MINOR_SYNCHRONIZE, ACTIVITIES, EXCEPTIONS = 0x0001, 0x0008, 0x0040, 0x0200
NEEDED = HALF_DUPLEX | MINOR_SYNCHRONIZE | ACTIVITIES | EXCEPTIONS
DEFAULT_REQUIREMENTS = 0x0349       # where a CONNECT has none: the four, and capability data
VERSION_1, VERSION_2 = 1, 2
LONGEST_USER_DATA = 512             # octets of the parameter of this name in a CONNECT; above it is the extended one
LONGEST_IDENTIFIER = 6              # octets of an activity's identifier
DATA_TOKEN, ALL_TOKENS = 0x01, 0b00010101     # of each of data, minor synchronize and activity a pair of bits
RELEASED, USER_ABORT = 0x01, 0x02
# reasons of a REFUSE
USER_REFUSES, USER_REFUSES_WITH_DATA, SELECTOR_UNKNOWN, VERSION_UNSUPPORTED = 0, 2, 0x81, 0x84
OWN_ERROR = 5                       # reason of an exception: the user's own error


# Written ---------------------------------------------------------------------------------------------------

def parameter(code, *values):
    value = b"".join(values)
    size = bytes([len(value)]) if len(value) < 255 else b"\xFF" + len(value).to_bytes(2, "big")
    return bytes([code]) + size + value


def alone(name, *values):
    return parameter(CODES_ALONE[name], *values)


def behind(name, *values):
    """A PDU of category 2 stands behind a GIVE TOKENS that gives none."""
    return parameter(GIVE_TOKENS) + parameter(CODES_BEHIND[name], *values)


class Reference(NamedTuple):
    """A session connection identifier: who called, when, and perhaps more. Octets of each, without BER's headers."""
    calling: bytes
    common: bytes
    additional: bytes = b""


def user_data(octets):
    if not octets:
        return b""
    return parameter(USER_DATA if len(octets) <= LONGEST_USER_DATA else EXTENDED_USER_DATA, octets)


def references(first, values):
    """The parameters of a session connection identifier; `values` has each in BER."""
    return b"".join(parameter(code, value) for code, value in
                    zip((first, COMMON_REFERENCE, ADDITIONAL_REFERENCE), values) if value)


def connect_item(version):
    return parameter(CONNECT_ITEM, parameter(PROTOCOL_OPTIONS, b"\0"), parameter(VERSION, bytes([version])),
                     parameter(TOKEN_SETTING, b"\0"))


def requirements():
    return parameter(REQUIREMENTS, NEEDED.to_bytes(2, "big"))


def selectors(calling, called):
    return b"".join(parameter(code, it) for code, it in ((CALLING_SELECTOR, calling), (CALLED_SELECTOR, called)) if it)


def connect(reference, calling, called, user, version=VERSION_2):
    return alone("connect", parameter(CONNECTION_IDENTIFIER, references(CALLING_REFERENCE, reference)),
                 connect_item(version), requirements(), selectors(calling, called), user_data(user))


def accept(reference, responding, user, version=VERSION_2):
    return alone("accept", parameter(CONNECTION_IDENTIFIER, references(CALLED_REFERENCE, reference)),
                 connect_item(version), requirements(), selectors(b"", responding), parameter(USER_DATA, user))


def refuse(reason, user=b"", version=VERSION_2):
    return alone("refuse", parameter(TRANSPORT_DISCONNECT, bytes([RELEASED])), parameter(VERSION, bytes([version])),
                 parameter(REASON, bytes([reason]), user))


def abort(user):
    return alone("abort", parameter(TRANSPORT_DISCONNECT, bytes([RELEASED | USER_ABORT])),
                 parameter(USER_DATA, user) if user else b"")


def finish(user):
    return alone("finish", parameter(TRANSPORT_DISCONNECT, bytes([RELEASED])), user_data(user))


def disconnect(user):
    return alone("disconnect", user_data(user))


def please(user):
    return parameter(PLEASE_TOKENS, parameter(TOKENS, bytes([DATA_TOKEN])), parameter(USER_DATA, user))


def serial(point):
    return parameter(SERIAL, str(point).encode())


def start(identifier):
    return behind("start", parameter(ACTIVITY, identifier))


def resume(identifier, old, point, reference):
    """`old` and `reference`: the activity as it was named before, and the session connection on which it was."""
    link = parameter(LINKING, references(CALLING_REFERENCE, reference), parameter(ACTIVITY, old), serial(point))
    return behind("resume", link, parameter(ACTIVITY, identifier))


def data(user):
    return behind("data") + user


def at_point(name, point):
    """MINOR SYNC POINT, its acknowledgement, ACTIVITY END, or its acknowledgement."""
    return behind(name, serial(point))


def discard():
    return behind("discard", parameter(REASON, b"\0"))


def exception(reason=OWN_ERROR):
    return behind("exception", parameter(REASON, bytes([reason])))


# Read ------------------------------------------------------------------------------------------------------

class Pdu(NamedTuple):
    name: str
    values: dict      # of parameters by their codes; a group has a dictionary of its own
    user: bytes       # user data


def taken(octets):
    """Code and value of the PDU or parameter in front, and what stands behind it."""
    if len(octets) < 2:
        raise Malformed("a session PDU is cut off")
    size, begins = octets[1], 2
    if size == 255:
        size, begins = int.from_bytes(octets[2:4], "big"), 4
    if begins + size > len(octets):
        raise Malformed("a session PDU is cut off")
    return octets[0], octets[begins:begins + size], octets[begins + size:]


def parameters(octets, inside=False):
    """The parameters by their codes. A group has its own ones in a dictionary, and no group in it."""
    found = {}
    while octets:
        code, value, octets = taken(octets)
        if code in found:
            raise Malformed("a parameter stands twice")
        found[code] = parameters(value, True) if code in GROUPS and not inside else value
    return found


def whole(name, values):
    """The PDU of a name and its parameters."""
    user = values.get(USER_DATA) or values.get(EXTENDED_USER_DATA) or b""
    return Pdu(name, values, user)


def read(octets):
    """The PDUs of one TSDU: one alone, or one of category 0 with perhaps one of category 2 behind it."""
    code, value, rest = taken(octets)
    if code not in (GIVE_TOKENS, PLEASE_TOKENS):
        if rest or code not in ALONE:
            raise Malformed(f"the session PDU {code}")
        return [whole(ALONE[code], parameters(value))]
    found = parameters(value)
    if code == PLEASE_TOKENS and found.get(TOKENS, b"\0") != b"\0":
        asked = [whole("please", found)]
    elif found.get(TOKENS, b"\0") == b"\0" and rest:
        asked = []
    else:
        raise Malformed("tokens are given by themselves")
    return asked + [second(rest)] if rest else asked


def second(octets):
    """The PDU of category 2 that stands there."""
    code, value, rest = taken(octets)
    if code not in BEHIND or rest and BEHIND[code] != "data":
        raise Malformed(f"the session PDU {code} behind another one")
    found = parameters(value)
    if BEHIND[code] == "data" and found:
        raise Malformed("data in segments")
    return whole(BEHIND[code], found) if BEHIND[code] != "data" else Pdu("data", found, rest)


def octet_of(values, code, default):
    value = values.get(code, bytes([default]))
    if len(value) != 1:
        raise Malformed("a parameter of one octet")
    return value[0]


def requirements_of(values):
    value = values.get(REQUIREMENTS, DEFAULT_REQUIREMENTS.to_bytes(2, "big"))
    if len(value) != 2:
        raise Malformed("functional units")
    return int.from_bytes(value, "big")


def point_of(values):
    """The serial number of a checkpoint: one to six decimal digits."""
    digits = values.get(SERIAL, b"")
    if not 1 <= len(digits) <= 6 or not digits.isdigit():
        raise Malformed("a serial number")
    return int(digits)


def identifier_of(values):
    octets = values.get(ACTIVITY)
    if not octets or len(octets) > LONGEST_IDENTIFIER:
        raise Malformed("an activity's identifier")
    return octets


def group_of(values, code):
    found = values.get(code, {})
    if not isinstance(found, dict):
        raise Malformed("a group of parameters")
    return found


def reference_values(found, first):
    """The parts of a session connection identifier, each in BER; None where it is not there."""
    return tuple(found.get(code) for code in (first, COMMON_REFERENCE, ADDITIONAL_REFERENCE))
