"""The service primitives that RTSE uses, as octets of session PDUs and back: in normal mode, through presentation and
association control. A primitive that came is a tuple: its name, then its values."""
from typing import NamedTuple

import acse
import ber
import presentation
import rtse
import session
from acse import Title
from ber import Malformed
from session import Reference

NOT_NORMAL = 2          # provider's reason of a refusal that carries nothing


class Address(NamedTuple):
    """Selectors and title of one end."""
    transport: bytes = b""
    session: bytes = b""
    presentation: bytes = b""
    title: Title = Title()


class Connect(NamedTuple):
    """What a connection that was asked for says of itself."""
    reference: Reference
    calling: Address
    called: Address
    context_name: str
    opening: rtse.Opening    # None where there is no RTORQ


class NormalMode:
    """Primitives of one connection in normal mode."""

    bind_argument, bind_result, bind_error = rtse.ARGUMENT, rtse.RESULT, rtse.ERROR
    version = session.VERSION_2

    def __init__(self, context_name=acse.MTS_TRANSFER):
        self.contexts = presentation.OURS
        self.context_name = context_name

    # Octets of primitives ----------------------------------------------------------------------------------

    def connect(self, reference, called, calling, opening):
        rtorq = rtse.request(opening, self.bind_argument)
        aarq = acse.request(self.context_name, called.title, calling.title, self.contexts.rtse, rtorq)
        user = presentation.connect(calling.presentation, called.presentation, aarq)
        return session.connect(rtse.reference_parts(reference), calling.session, called.session, user)

    def accept(self, reference, responding, opening):
        rtoac = rtse.accepted(opening, self.bind_result)
        aare = acse.response(self.context_name, acse.ACCEPTED, responding.title, self.contexts.rtse, rtoac)
        user = presentation.accept(responding.presentation, self.contexts, aare)
        return session.accept(rtse.reference_parts(reference), responding.session, user)

    def refuse(self, reason, is_bind):
        rtorj = rtse.refused(reason, is_bind, self.bind_error)
        result = acse.REJECTED_FOR_NOW if reason == rtse.BUSY else acse.REJECTED
        return self.refused(acse.response(self.context_name, result, Title(), self.contexts.rtse, rtorj))

    def refuse_context_name(self):
        return self.refused(acse.response(self.context_name, acse.REJECTED, Title(), 0, b"",
                                          acse.CONTEXT_NAME_UNSUPPORTED))

    def refused(self, aare):
        return session.refuse(session.USER_REFUSES_WITH_DATA, presentation.refuse(self.contexts, aare))

    def abort(self, reason):
        abrt = acse.abort(self.contexts.rtse, rtse.aborted(reason))
        return session.abort(presentation.abort(self.contexts, abrt))

    def data(self, octets):
        return session.data(presentation.user_data(self.contexts.rtse, ber.element(ber.OCTET_STRING, octets)))

    def please(self, priority):
        return session.please(presentation.user_data(self.contexts.rtse, ber.integer(priority)))

    def release(self):
        return session.finish(presentation.user_data(self.contexts.acse, acse.release()))

    def release_answer(self):
        return session.disconnect(presentation.user_data(self.contexts.acse, acse.released()))

    def wrapper(self, piece):
        """What stands in front of the message that begins with this piece, and behind it."""
        return rtse.wrapper(piece, self.contexts.mts)

    def unwrapped(self, octets):
        return rtse.unwrapped(octets, self.contexts.mts)

    # Primitives of octets ----------------------------------------------------------------------------------

    def read(self, pdu):
        """The primitives of a session PDU."""
        try:
            return [self.primitive(it) for it in session.read(pdu)]
        except (IndexError, ValueError, TypeError, AttributeError) as why:
            raise Malformed(f"a PDU that cannot be read: {why}") from why

    def primitive(self, pdu):
        if pdu.name in READ:
            return READ[pdu.name](self, pdu)
        if pdu.name in POINTS:
            return pdu.name, session.point_of(pdu.values)
        return (pdu.name,)

    def read_connect(self, pdu):
        values = pdu.values
        check_proposed(values, self.version)
        asked = presentation.read_connect(pdu.user)
        if asked.contexts is None:
            raise Refused(session.refuse(session.USER_REFUSES))
        self.contexts = asked.contexts
        aarq = acse.read_request(asked.apdu, self.contexts.rtse)
        reference = rtse.reference_of(reference_values(values, session.CALLING_REFERENCE))
        calling = Address(b"", values.get(session.CALLING_SELECTOR, b""), asked.calling, aarq.calling)
        called = Address(b"", values.get(session.CALLED_SELECTOR, b""), asked.called, aarq.called)
        opening = rtse.opening_of(aarq.apdu, rtse.REQUEST, self.bind_argument) if aarq.apdu else None
        return "connect", Connect(reference, calling, called, aarq.name, opening)

    def read_accept(self, pdu):
        check_accepted(pdu.values, self.version)
        aare = acse.read_response(presentation.read_accept(pdu.user), self.contexts.rtse)
        if aare.result != acse.ACCEPTED or aare.apdu is None:
            raise Malformed("an association that is not accepted")
        return "accept", rtse.opening_of(aare.apdu, rtse.ACCEPTED, self.bind_result), aare.responding

    def read_refuse(self, pdu):
        """The reason of a refusal: BUSY where nobody said another one."""
        reason = pdu.values.get(session.REASON, b"\0")
        if reason[:1] != bytes([session.USER_REFUSES_WITH_DATA]) or len(reason) == 1:
            return "refuse", rtse.BUSY
        apdu = presentation.read_refuse(reason[1:])
        if apdu is None:
            return "refuse", rtse.BUSY
        return "refuse", rtse.refusal_of(acse.read_response(apdu, self.contexts.rtse).apdu)

    def read_abort(self, pdu):
        """The reason of an RTAB, None where a provider aborted or nobody said why."""
        abrt = presentation.read_abort(pdu.user, self.contexts) if pdu.user else None
        return "abort", None if abrt is None else rtse.abort_reason(acse.read_abort(abrt, self.contexts.rtse))

    def read_data(self, pdu):
        values = presentation.values_of(pdu.user)
        if any(context != self.contexts.rtse for context, _ in values):
            raise Malformed("data of another context")
        return "data", b"".join(ber.string(value, ber.OCTET_STRING) for _, value in values)

    def read_please(self, pdu):
        if pdu.user:
            ber.number(ber.only(ber.INTEGER, presentation.value_of(pdu.user, self.contexts.rtse)))
        return ("please",)

    def read_release(self, pdu):
        return self.released("release", acse.RELEASE, pdu)

    def read_release_answer(self, pdu):
        return self.released("release_answer", acse.RELEASED, pdu)

    def released(self, name, tag, pdu):
        if pdu.user:
            ber.components(ber.only(tag, presentation.value_of(pdu.user, self.contexts.acse)))
        return (name,)

    def read_start(self, pdu):
        return "start", session.identifier_of(pdu.values)

    def read_resume(self, pdu):
        """Identifiers now and before, the checkpoint, and the session connection where it is another one."""
        link = session.group_of(pdu.values, session.LINKING)
        values = session.reference_values(link, session.CALLING_REFERENCE)
        other = rtse.reference_of(values) if values[0] is not None else None
        return "resume", session.identifier_of(pdu.values), session.identifier_of(link), session.point_of(link), other

    # Session PDUs without user data ------------------------------------------------------------------------

    start = staticmethod(session.start)
    discard = staticmethod(session.discard)
    exception = staticmethod(session.exception)

    @staticmethod
    def resume(identifier, old, point, reference):
        return session.resume(identifier, old, point, rtse.reference_parts(reference))

    @staticmethod
    def at_point(name, point):
        return session.at_point(name, point)

    @staticmethod
    def bare(name):
        """GIVE, its acknowledgement, or that of a discarded activity."""
        return session.behind(name) if name == "discard_ack" else session.alone(name)


POINTS = ("minor", "minor_ack", "end", "end_ack")
READ = {"connect": NormalMode.read_connect, "accept": NormalMode.read_accept, "refuse": NormalMode.read_refuse,
        "abort": NormalMode.read_abort, "data": NormalMode.read_data, "please": NormalMode.read_please,
        "finish": NormalMode.read_release, "disconnect": NormalMode.read_release_answer,
        "start": NormalMode.read_start, "resume": NormalMode.read_resume}


class Refused(Exception):
    """A connection that was asked for with what is not done here; its argument is the PDU that says so."""


def reference_values(values, first):
    return session.reference_values(session.group_of(values, session.CONNECTION_IDENTIFIER), first)


def check_proposed(values, needed):
    """Refuses a CONNECT whose versions, functional units or tokens are not those of RTSE."""
    item = session.group_of(values, session.CONNECT_ITEM)
    if not session.octet_of(item, session.VERSION, session.VERSION_1) & needed:
        raise Refused(session.refuse(session.VERSION_UNSUPPORTED))
    if session.requirements_of(values) & session.NEEDED != session.NEEDED:
        raise Refused(session.refuse(session.USER_REFUSES))
    setting = session.octet_of(item, session.TOKEN_SETTING, 0)
    # each token with the initiator, or as we choose
    if setting & session.ALL_TOKENS:
        raise Refused(session.refuse(session.USER_REFUSES))


def check_accepted(values, version):
    """Whether an ACCEPT chose what was proposed, and no more."""
    item = session.group_of(values, session.CONNECT_ITEM)
    if session.octet_of(item, session.VERSION, session.VERSION_1) != version:
        raise Malformed("another version of the session protocol was chosen")
    if session.requirements_of(values) != session.NEEDED:
        raise Malformed("other functional units were chosen")
    if item.get(session.TSDU_SIZE, b"\0\0\0\0").strip(b"\0"):
        raise Malformed("segmenting was chosen")
