"""Both ends of a bridge without sockets: a plain agent and a plain station around associations, whose octets are
recorded and played again."""
import ipaddress
import sys
from pathlib import Path

sys.path.insert(0, str(Path(__file__).resolve().parents[2] / "contrib" / "osi"))
import associations  # noqa: E402
import ber  # noqa: E402
import older  # noqa: E402
import peers  # noqa: E402
import rtse  # noqa: E402
import session  # noqa: E402
import tpkt  # noqa: E402
import units  # noqa: E402
from opening import Called, Calling  # noqa: E402
from primitives import NormalMode, Refused  # noqa: E402

GOLD, SILVER = "GOLD-1", "SILVER-1"
OUT = peers.settings_of("out", f"peer {SILVER}\npeer-tsel MTA\nagent-ap-title 2.6.0.1.1\nagent-ae-qualifier 1\n")
INTO = peers.settings_of("in", f"peer {GOLD}\nagent-tsel MTA\npeer-ap-title 2.6.0.1.1\n")
MESSAGE = bytes.fromhex(
    "A063315D601830166104130247426206" "1304474F4C44A506800442454C4C6417" "630E6104130247426206" "1304474F4C441605"
    "4D30303031460116" "6900" "A2233121" "601830166104130247426206" "1304474F4C44A506800457415454" "8001018102"
    "00A8" "04024869")


class Unwritten(associations.Map):
    """A map without a file."""

    def __init__(self):
        self.lanes, self.sessions, self.by_reference, self.by_session = {}, {}, {}, {}
        self.highest_lane = self.highest_session = 0

    def add(self, *lines, durable):
        for line in lines:
            self.take(line.split(" "))

    def day(self):
        return 0


class End:
    """An association with its host: `mine` answers what our agent gets, `put` gets each packet for the peer."""

    def __init__(self, way, lanes=None, settings=None):
        self.transport = tpkt.Transport(self.send)
        self.reader, self.packets, self.to_send, self.units = units.Reader(), [], [], []
        self.unread, self.waits = [], False
        lanes = lanes or Unwritten()
        if way == "out":
            settings = settings or OUT
            self.association = Called(self, lanes, settings, older.mode_named(settings.application_context))
            self.agent = Agent(self)
        else:
            self.association = Calling(self, lanes, settings or [INTO], NormalMode())
            self.agent = Station(self)

    # host --------------------------------------------------------------------------------------------------

    def send(self, octets):
        self.packets.append(octets)

    def to_peer(self, pdu):
        self.transport.put(pdu)

    def to_agent(self, octets):
        self.units += self.reader.received(octets)

    def log(self, text):
        self.said = text

    def later(self, seconds):
        self.waits = True

    def cancel(self):
        self.waits = False

    def set_longest(self, size):
        self.transport.longest = 2 * (size * 1024 or units.LONGEST_PIECE) + 4096

    def calling_selector(self):
        return self.transport.calling

    def called_selector(self):
        return self.transport.called

    def address(self):
        return ipaddress.ip_address("192.0.2.1")

    # what a pair does --------------------------------------------------------------------------------------

    def open_other(self):
        """The other side is reached at once."""
        it = self.association
        it.take_lane()
        if isinstance(it, Calling):
            it.agent_is_ready()
        else:
            self.transport.call(it.settings.here.transport, it.settings.there.transport)

    def settle(self):
        """Lets our agent answer, and takes what the peer put meanwhile, until nothing is left to do."""
        it = self.association
        while not it.is_over and (self.units or self.unread and it.takes_from_peer or self.waits):
            if self.units:
                for unit in self.agent.got(*self.units.pop(0)):
                    self.from_agent(*unit)
            elif self.unread and it.takes_from_peer:
                it.from_peer(*self.unread.pop(0))
                if it.waits_for_lane and not it.is_over:
                    self.open_other()
            else:
                self.waits = False
                it.release()

    def from_agent(self, kind, body):
        it = self.association
        if it.is_over:
            return
        it.from_agent(kind, body)
        if it.waits_for_lane and not it.is_over:
            self.open_other()

    def received(self, octets):
        """Octets of the peer come. Whether the association goes on."""
        it = self.association
        was_open = self.transport.open
        try:
            for pdu in self.transport.received(octets):
                self.unread += it.read(pdu)
                self.settle()
            if self.transport.open and not was_open and isinstance(it, Called):
                it.peer_is_ready()
            self.settle()
        except ber.Malformed as why:
            if not it.is_over:
                it.broken(str(why))
        except Refused as why:
            self.to_peer(why.args[0])
            it.is_over = True
        except tpkt.Ended:
            it.is_over = True
        return not it.is_over


class Agent:
    """Our agent calls, sends one message in pieces, takes one, and closes."""

    def __init__(self, end, size=1):
        self.end, self.size, self.asked, self.got_message = end, size, False, 0
        self.pieces = [MESSAGE] if not size else [MESSAGE[:60], MESSAGE[60:80], MESSAGE[80:]]

    def begin(self, recovered=None, mode=rtse.TWO_WAY):
        name = session.Reference(GOLD.encode(), b"261202040154Z", b"0000000001")
        bind = None if recovered else rtse.Bind(GOLD.encode(), b"ours")
        asked = rtse.Opening(self.size, 3, mode, bind, name if recovered else None)
        self.end.from_agent(units.OPEN, units.open_unit(GOLD.encode(), name, rtse.request(asked))[units.HEADER:])

    def piece(self, at):
        yield units.DATA, ber.element(4, self.pieces[at])
        if at + 1 < len(self.pieces):
            yield units.SYNC, (at + 1).to_bytes(4, "big")
        else:
            yield units.END, b"\0\0\0\1"

    def sends(self):
        yield units.START, b"\0\0\0\1"
        for at in range(len(self.pieces)):
            yield from self.piece(at)

    def got(self, kind, body):
        if kind == units.ACCEPT:
            yield from self.sends()
        elif kind == units.END_ACK:
            yield (units.GIVE if self.asked else units.CLOSE), b""
        elif kind == units.PLEASE:
            self.asked = True
        elif kind == units.SYNC:
            yield units.SYNC_ACK, body
        elif kind == units.END:
            self.got_message += 1
            yield units.END_ACK, body
        elif kind == units.GIVE:
            self.asked = False
            yield units.CLOSE, b""


class Station:
    """Our agent is called, takes messages, and sends one."""

    def __init__(self, end):
        self.end, self.got_message, self.octets, self.size = end, 0, b"", 1

    def got(self, kind, body):
        if kind == units.OPEN:
            yield units.ACCEPT, self.accept(body)
            yield units.PLEASE, ber.integer(0)
        elif kind == units.DATA:
            self.octets += ber.only(4, body)
        elif kind in ANSWERS:
            yield ANSWERS[kind], body
            self.got_message += kind == units.END
        elif kind == units.GIVE:
            yield units.START, b"\0\0\0\1"
            yield units.DATA, ber.element(4, MESSAGE)
            yield units.END, b"\0\0\0\1"
        elif kind == units.END_ACK:
            yield units.GIVE, b""

    def accept(self, body):
        _, _, rtorq = units.read_open(body)
        asked = rtse.opening_of(rtorq, rtse.REQUEST, None)
        bind = None if asked.recovered else rtse.Bind(SILVER.encode(), b"theirs")
        return rtse.accepted(rtse.Opening(asked.checkpoint, asked.window, 0, bind, asked.recovered))


ANSWERS = {units.SYNC: units.SYNC_ACK, units.END: units.END_ACK, units.RESUME: units.RESUME_ACK,
           units.DISCARD: units.DISCARD_ACK, units.CLOSE: units.CLOSE_ACK}


def recorded(calls=None, called=None):
    """A whole session between two bridges: the packets of either end, in their order."""
    out, into = End("out", settings=calls), End("in", settings=called)
    out.agent.begin()
    out.settle()
    found, done = [], {"O": 0, "I": 0}
    while done["O"] < len(out.packets) or done["I"] < len(into.packets):
        for way, one, other in (("O", out, into), ("I", into, out)):
            while done[way] < len(one.packets):
                packet = one.packets[done[way]]
                done[way] += 1
                found.append((way, packet))
                if not other.association.is_over:
                    other.received(packet)
    assert out.association.ends_well and into.association.ends_well, (out.said, into.said)
    assert into.agent.octets == MESSAGE and into.agent.got_message == out.agent.got_message == 1
    return found
