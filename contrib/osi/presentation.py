"""The PDUs of the presentation protocol (X.226) in normal mode, with the basic encoding rules as the one transfer
syntax."""
from typing import NamedTuple

import ber
from ber import Malformed, element, integer, object_identifier

BASIC_ENCODING = "2.1.1"
ACSE_SYNTAX, RTSE_SYNTAX, MTS_SYNTAX = "2.2.1.0.1", "2.6.0.2.12", "2.6.0.2.7"
SYNTAXES = (ACSE_SYNTAX, RTSE_SYNTAX, MTS_SYNTAX)
NORMAL_MODE, OLDER_MODE = 1, 0
MODE, NORMAL = 0xA0, 0xA2
VERSION = element(0x80, b"\7\x80")                  # version 1
CALLING, CALLED, RESPONDING, DEFINITIONS, RESULTS, USER = 0x81, 0x82, 0x83, 0xA4, 0xA5, 0x61
ACCEPTED, PROVIDER_REJECTS, SYNTAX_UNSUPPORTED = 0, 2, 1
MOST_CONTEXTS = 64


class Contexts(NamedTuple):
    """The contexts' identifiers of one connection, and which ones were proposed, in their order."""
    acse: int = 1
    rtse: int = 3
    mts: int = 5
    proposed: tuple = (1, 3, 5)


OURS = Contexts()


# Written ---------------------------------------------------------------------------------------------------

def value_list(context, value):
    return element(0x30, integer(context), element(0xA0, value))


def user_data(context, value):
    return element(USER, value_list(context, value))


def definitions():
    return element(DEFINITIONS, *(element(0x30, integer(at), object_identifier(name),
                                          element(0x30, object_identifier(BASIC_ENCODING)))
                                  for at, name in zip(OURS.proposed, SYNTAXES)))


def results(contexts):
    """What becomes of each context that was proposed."""
    taken = contexts[:3]
    yes = element(0x30, integer(ACCEPTED, 0x80), object_identifier(BASIC_ENCODING, 0x81))
    no = element(0x30, integer(PROVIDER_REJECTS, 0x80), integer(SYNTAX_UNSUPPORTED, 0x82))
    return element(RESULTS, *(yes if it in taken else no for it in contexts.proposed))


def selector(tag, octets):
    return element(tag, octets) if octets else b""


def mode(number):
    return element(MODE, integer(number, 0x80))


def connect(calling, called, apdu):
    normal = element(NORMAL, VERSION, selector(CALLING, calling), selector(CALLED, called), definitions(),
                     user_data(OURS.acse, apdu))
    return element(0x31, mode(NORMAL_MODE), normal)


def accept(responding, contexts, apdu):
    normal = element(NORMAL, VERSION, selector(RESPONDING, responding), results(contexts),
                     user_data(contexts.acse, apdu))
    return element(0x31, mode(NORMAL_MODE), normal)


def refuse(contexts, apdu):
    return element(0x30, VERSION, results(contexts), user_data(contexts.acse, apdu))


def abort(contexts, apdu):
    names = element(0xA0, *(element(0x30, integer(it), object_identifier(BASIC_ENCODING))
                            for it in (contexts.acse, contexts.rtse)))
    return element(0xA0, names, user_data(contexts.acse, apdu))


# Read ------------------------------------------------------------------------------------------------------

def value_in(content):
    """Context and value of one list of presentation data values, which has one."""
    found = ber.parts(content)
    if found and found[0][0] == 0x06:           # the transfer syntax
        found = found[1:]
    if len(found) != 2 or found[0][0] != 0x02:
        raise Malformed("a presentation data value")
    tag, value = found[1]
    if tag == 0xA0:
        return ber.number(found[0][1]), value
    if tag & ~ber.CONSTRUCTED == 0x81:
        return ber.number(found[0][1]), ber.joined(tag, value)
    raise Malformed("a presentation data value in bits")


def values_of(octets):
    """Contexts and values of fully encoded user data."""
    return [value_in(content) for content in lists(ber.only(USER, octets))]


def lists(octets):
    found = ber.parts(octets)
    if not found or any(tag != 0x30 for tag, _ in found):
        raise Malformed("presentation data values")
    return [content for _, content in found]


def value_of(octets, context):
    """The one value, of this context."""
    found = values_of(octets)
    if len(found) != 1 or found[0][0] != context:
        raise Malformed("a value of another context")
    return found[0][1]


def user_of(named):
    """The user data among the components of a PDU."""
    if USER not in named:
        raise Malformed("no user data")
    return element(USER, named[USER])


def mode_of(octets):
    """The mode of a CP or CPA, and its components."""
    named = ber.components(ber.only(0x31, octets))
    if MODE not in named:
        raise Malformed("no mode")
    return ber.number(ber.only(0x80, named[MODE])), named


def normal_of(octets):
    number, named = mode_of(octets)
    if number != NORMAL_MODE or NORMAL not in named:
        raise Malformed("not in normal mode")
    return ber.components(named[NORMAL])


class Connect(NamedTuple):
    calling: bytes
    called: bytes
    contexts: Contexts      # None where one that is needed was not proposed
    apdu: bytes


def definition(content):
    """Identifier and abstract syntax of a context that was proposed; no syntax where the encoding is another one."""
    found = ber.parts(content)
    if [tag for tag, _ in found] != [0x02, 0x06, 0x30]:
        raise Malformed("the definition of a context")
    encodings = [ber.identifier_text(it) for tag, it in ber.parts(found[2][1]) if tag == 0x06]
    name = ber.identifier_text(found[1][1])
    return ber.number(found[0][1]), name if BASIC_ENCODING in encodings else None


def contexts_of(octets):
    """The contexts that are taken of those that were proposed: the first one of each syntax."""
    found = [definition(content) for content in lists(octets)] if octets else []
    if len(found) > MOST_CONTEXTS:
        raise Malformed("too many contexts")
    proposed = tuple(identifier for identifier, _ in found)
    if len(set(proposed)) != len(proposed):
        raise Malformed("a context stands twice")
    first = {name: identifier for identifier, name in reversed(found)}
    if not all(name in first for name in SYNTAXES):
        return None
    return Contexts(*(first[name] for name in SYNTAXES), proposed)


def read_connect(octets):
    named = normal_of(octets)
    contexts = contexts_of(named.get(DEFINITIONS, b""))
    values = values_of(user_of(named))
    apdus = [value for context, value in values if contexts is None or context == contexts.acse]
    if len(apdus) != 1:
        raise Malformed("user data of another context")
    return Connect(named.get(CALLING, b""), named.get(CALLED, b""), contexts, apdus[0])


def read_accept(octets):
    """The APDU of a CPA. All of our contexts have to be accepted."""
    named = normal_of(octets)
    found = [ber.components(content) for content in lists(named.get(RESULTS, b""))]
    if [ber.number(it.get(0x80, b"\1")) for it in found] != [ACCEPTED] * len(SYNTAXES):
        raise Malformed("a context was not accepted")
    return value_of(user_of(named), OURS.acse)


def read_refuse(octets):
    """The APDU of a CPR, None where the provider refused."""
    named = ber.components(ber.only(0x30, octets))
    return value_of(user_of(named), OURS.acse) if USER in named else None


def read_abort(octets, contexts):
    """The APDU of an ARU, None where a provider aborted."""
    if octets[0] != 0xA0:
        return None
    named = ber.components(ber.only(0xA0, octets))
    return value_of(user_of(named), contexts.acse) if USER in named else None
