"""The same primitives in X.410-1984 mode, for the P1 of 1988 (mts-transfer-protocol): session version 1, no association
control, and data without any encoding. It is made from memory, and nothing was at hand that could judge it."""
import ber
import presentation
import primitives
import rtse
import session
from acse import Title
from ber import Malformed, element, integer
from primitives import Address, Connect, NormalMode

CONTEXT_NAME = "mts-transfer-protocol"
APPLICATION_PROTOCOL = integer(12, 0x84)
PARAMETERS = 0xA1


def set_of(apdu):
    """The components of an APDU of RTSE."""
    return ber.taken(apdu)[1]


class OlderMode(NormalMode):
    """Primitives of one connection in X.410-1984 mode. A bind has no tags around it."""

    bind_argument = bind_result = bind_error = None
    version = session.VERSION_1

    def __init__(self):
        super().__init__(CONTEXT_NAME)

    def parameters(self, apdu, *more):
        return element(0x31, presentation.mode(presentation.OLDER_MODE), element(PARAMETERS, set_of(apdu), *more))

    def connect(self, reference, called, calling, opening):
        user = self.parameters(rtse.request(opening), APPLICATION_PROTOCOL)
        return session.connect(self.references(reference), calling.session, called.session, user, self.version)

    def accept(self, reference, responding, opening):
        user = self.parameters(rtse.accepted(opening))
        return session.accept(self.references(reference), responding.session, user, self.version)

    @staticmethod
    def references(reference):
        """The parts of a reference: the first one is Teletex here."""
        parts = rtse.reference_parts(reference)
        return (element(ber.TELETEX_STRING, reference.calling), *parts[1:])

    def resume(self, identifier, old, point, reference):
        return session.resume(identifier, old, point, self.references(reference))

    def refuse(self, reason, is_bind):
        return session.refuse(session.USER_REFUSES_WITH_DATA, element(0x31, integer(reason, 0x80)), self.version)

    def refuse_context_name(self):
        return session.refuse(session.USER_REFUSES, b"", self.version)

    def abort(self, reason):
        return session.abort(element(0x31, integer(reason, 0x80)))

    def data(self, octets):
        return session.data(octets)

    def please(self, priority):
        return session.please(integer(priority))

    def release(self):
        return session.finish(b"")

    def release_answer(self):
        return session.disconnect(b"")

    def wrapper(self, piece):
        return b"", b""

    def unwrapped(self, octets):
        return octets, 0

    # Primitives of octets ----------------------------------------------------------------------------------

    def primitive(self, pdu):
        if pdu.name in READ:
            return READ[pdu.name](self, pdu)
        return super().primitive(pdu)

    def apdu(self, pdu, tag, *left_out):
        """The components that a CONNECT or ACCEPT carries, as an APDU of RTSE."""
        number, named = presentation.mode_of(pdu.user)
        if number != presentation.OLDER_MODE or PARAMETERS not in named:
            raise Malformed("not in X.410-1984 mode")
        kept = [(it, content) for it, content in ber.parts(named[PARAMETERS]) if it not in left_out]
        return element(tag, *(element(*it) for it in kept))

    def read_connect(self, pdu):
        primitives.check_proposed(pdu.values, self.version)
        values = primitives.reference_values(pdu.values, session.CALLING_REFERENCE)
        opening = rtse.opening_of(self.apdu(pdu, rtse.REQUEST, 0x84), rtse.REQUEST, None)
        # no presentation selector can be said, and no title
        calling, called = (Address(b"", pdu.values.get(code, b""), None, None)
                           for code in (session.CALLING_SELECTOR, session.CALLED_SELECTOR))
        return "connect", Connect(rtse.reference_of(values), calling, called, self.context_name, opening)

    def read_accept(self, pdu):
        primitives.check_accepted(pdu.values, self.version)
        return "accept", rtse.opening_of(self.apdu(pdu, rtse.ACCEPTED), rtse.ACCEPTED, None), Title()

    def read_refuse(self, pdu):
        reason = pdu.values.get(session.REASON, b"\0")
        if reason[:1] != bytes([session.USER_REFUSES_WITH_DATA]) or len(reason) == 1:
            return "refuse", rtse.BUSY
        named = ber.components(ber.only(0x31, reason[1:]))
        return "refuse", ber.number(named.get(0x80, b"\0"))

    def read_abort(self, pdu):
        if not pdu.user:
            return "abort", None
        return "abort", ber.number(ber.components(ber.only(0x31, pdu.user)).get(0x80, b"\0"))

    def read_data(self, pdu):
        return "data", pdu.user

    def read_please(self, pdu):
        if pdu.user:
            ber.number(ber.only(ber.INTEGER, pdu.user))
        return ("please",)


READ = {"connect": OlderMode.read_connect, "accept": OlderMode.read_accept, "refuse": OlderMode.read_refuse,
        "abort": OlderMode.read_abort, "data": OlderMode.read_data, "please": OlderMode.read_please}


def mode_named(context):
    """The mode of an application context, as a configuration names it."""
    return OlderMode() if context == CONTEXT_NAME else NormalMode()


def is_older(pdu):
    """Whether a CONNECT is in this mode."""
    found = session.read(pdu)
    if len(found) != 1 or found[0].name != "connect":
        return False
    return presentation.mode_of(found[0].user)[0] == presentation.OLDER_MODE
