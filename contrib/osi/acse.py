"""The APDUs of association control (X.227), and the EXTERNAL in which they carry those of RTSE."""
from typing import NamedTuple

import ber
from ber import Malformed, element, integer, object_identifier

MTS_TRANSFER = "2.6.0.1.6"
REQUEST, RESPONSE, RELEASE, RELEASED, ABORT = 0x60, 0x61, 0x62, 0x63, 0x64
CONTEXT_NAME, RESULT, DIAGNOSTIC, USER = 0xA1, 0xA2, 0xA3, 0xBE
CALLED_TITLE, CALLED_QUALIFIER, CALLING_TITLE, CALLING_QUALIFIER = 0xA2, 0xA3, 0xA6, 0xA7
RESPONDING_TITLE, RESPONDING_QUALIFIER = 0xA4, 0xA5
ACCEPTED, REJECTED, REJECTED_FOR_NOW = 0, 1, 2
NO_REASON, CONTEXT_NAME_UNSUPPORTED = 1, 2
EXTERNAL = 0x28


class Title(NamedTuple):
    """An application entity: its process's title and its qualifier, each as an element or empty."""
    process: bytes = b""
    qualifier: bytes = b""


def external(context, value):
    return element(EXTERNAL, integer(context), element(0xA0, value))


def user(context, apdu):
    return element(USER, external(context, apdu)) if apdu else b""


def titled(tags, title):
    return b"".join(element(tag, part) for tag, part in zip(tags, title) if part)


def request(name, called, calling, context, apdu):
    return element(REQUEST, element(CONTEXT_NAME, object_identifier(name)),
                   titled((CALLED_TITLE, CALLED_QUALIFIER), called),
                   titled((CALLING_TITLE, CALLING_QUALIFIER), calling), user(context, apdu))


def response(name, result, title, context, apdu, reason=NO_REASON):
    diagnostic = element(DIAGNOSTIC, element(0xA1, integer(reason if result else 0)))
    return element(RESPONSE, element(CONTEXT_NAME, object_identifier(name)), element(RESULT, integer(result)),
                   diagnostic, titled((RESPONDING_TITLE, RESPONDING_QUALIFIER), title), user(context, apdu))


def release():
    return element(RELEASE, integer(0, 0x80))


def released():
    return element(RELEASED, integer(0, 0x80))


def abort(context, apdu):
    return element(ABORT, integer(0, 0x80), user(context, apdu))


# Read ------------------------------------------------------------------------------------------------------

def information(named, context):
    """The APDU of RTSE among the components of an APDU, None where there is none."""
    if USER not in named:
        return None
    found = ber.parts(ber.only(EXTERNAL, named[USER]))
    if found and found[0][0] == 0x06:
        found = found[1:]
    if len(found) != 2 or found[0][0] != 0x02 or found[1][0] != 0xA0 or ber.number(found[0][1]) != context:
        raise Malformed("user information")
    return found[1][1]


def title_of(named, tags):
    return Title(*(named.get(tag, b"") for tag in tags))


class Request(NamedTuple):
    name: str
    calling: Title
    called: Title
    apdu: bytes


def context_name(named):
    return ber.identifier_text(ber.only(0x06, named.get(CONTEXT_NAME, b"")))


def read_request(octets, context):
    named = ber.components(ber.only(REQUEST, octets))
    return Request(context_name(named), title_of(named, (CALLING_TITLE, CALLING_QUALIFIER)),
                   title_of(named, (CALLED_TITLE, CALLED_QUALIFIER)), information(named, context))


class Response(NamedTuple):
    name: str
    result: int
    responding: Title
    apdu: bytes


def read_response(octets, context):
    named = ber.components(ber.only(RESPONSE, octets))
    result = ber.number(ber.only(0x02, named.get(RESULT, b"")))
    return Response(context_name(named), result, title_of(named, (RESPONDING_TITLE, RESPONDING_QUALIFIER)),
                    information(named, context))


def read_abort(octets, context):
    return information(ber.components(ber.only(ABORT, octets)), context)
