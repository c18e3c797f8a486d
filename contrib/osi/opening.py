"""How an association is opened: by our agent, which calls the bridge and has it call a peer, or by a peer."""
import older
import peers
import rtse
import units
from associations import reference_text
from ber import Malformed
from primitives import Refused
from rtse import Bind, Opening
from session import Reference
from translation import AGENT, NONE, PEER, Association

LONGEST_CALLING = 62         # octets of a calling reference, which has 64 with its header


# References ------------------------------------------------------------------------------------------------

def reference_of_lane(name, reference):
    """The session connection's reference for one of a lane. X.225 has four octets for the additional part, so ours
    joins the first one."""
    calling = name if not reference.additional else name + b"/" + reference.additional
    if len(calling) > LONGEST_CALLING:
        raise Malformed("a reference that the session has no room for")
    return Reference(calling, reference.common)


def lane_reference(settings, reference):
    """The lane's reference for one of a session connection: what another bridge joined is parted again, and any other
    one stands whole in the additional part."""
    name = (settings.peer_mta_name or settings.peer.encode()) + b"/"
    rest = reference.calling[len(name):]
    if reference.additional or not reference.calling.startswith(name) or rest.startswith(b"="):
        rest = b"=%d=" % len(reference.calling) + reference.calling
        rest += b"=" + reference.additional if reference.additional else b""
    return Reference(settings.peer.encode(), reference.common, rest)


# Sizes -----------------------------------------------------------------------------------------------------

def larger(size):
    """The checkpoint size of OSI: a unit more, for the EXTERNAL's header in front of a message. 0 is one piece."""
    return size + 1 if size else 0


def smaller(size):
    return size - 1 if size else 0


def bounded(size, most):
    """The checkpoint size where no more than so many units are wanted, and 0 is the least of all."""
    if most is None:
        return size
    return min(size, most)


def bounded_window(window, most):
    return max(1, window if most is None else min(window, most))


class Opened(Association):
    """What both ways of opening share."""

    def take_lane(self):
        """The host has seen to it that no other connection of the lane is open."""
        self.waits_for_lane = False

    def begin_transfers(self, opening, is_initiator):
        self.is_open, self.is_initiator = True, is_initiator
        self.turn = AGENT if is_initiator else PEER
        self.size, self.window, self.state = opening.checkpoint, opening.window, NONE
        self.host.set_longest(larger(self.size))
        self.host.log(f"association {'resumed' if opening.recovered else 'opened'}, checkpoint size {self.size}, "
                      f"window {self.window}")

    def refuse(self, text, reason):
        """The peer's connection is refused."""
        self.host.log(f"refused: {text}")
        self.host.to_peer(self.mode.refuse(reason, self.is_bind))
        self.is_over = self.ends_well = True


class Called(Opened):
    """Our agent called the bridge, which calls the peer."""

    is_initiator = True
    request = None

    def opening_from_agent(self, kind, body):
        if kind == units.ABORT:
            self.is_over = True
            return
        if kind != units.OPEN or self.request is not None:
            raise Malformed("a unit in front of an Open")
        name, self.reference, rtorq = units.read_open(body)
        self.request = rtse.opening_of(rtorq, rtse.REQUEST, None)
        self.two_way = self.request.mode == rtse.TWO_WAY
        self.name = name
        if self.settings.agent is not None and name != self.settings.agent.encode():
            self.reject(f"an Open of {name!r}, and not of {self.settings.agent}", rtse.VALIDATION_FAILURE)
        elif self.request.bind is not None and self.request.bind.name is None:
            self.reject("an Open with NULL", rtse.VALIDATION_FAILURE)
        else:
            self.find_lane()

    def reject(self, text, reason):
        """Our agent's connection is refused."""
        self.host.log(text)
        self.last_word = units.unit(units.REJECT, body=rtse.plain_refusal(reason))
        self.is_over = self.ends_well = True

    def find_lane(self):
        """The lane of the map. One that the map does not have, and that is resumed, was lost with an older map: what
        the peer resumes on it is not known then."""
        reference = self.request.recovered or self.reference
        key = Reference(reference.calling, reference.common, reference.additional or b"")
        self.first = reference_of_lane(self.settings.agent_mta_name or self.name, reference)
        self.lane = self.map.lane_of(self.settings.peer, key)
        if self.lane is None:
            lost = self.request.recovered is not None
            self.lane = self.map.begin(self.settings.peer, key, lost)
            if lost:
                self.host.log("the map does not have this lane: what the peer resumes on it is refused")
        self.waits_for_lane = True

    def new_reference(self):
        """The reference of this session connection: the lane's first one, or one of its own."""
        if not self.settings.new_references or not self.lane.sessions:
            return self.first
        return Reference(self.first.calling + b"/%d" % (self.map.highest_session + 1), self.first.common)

    def peer_is_ready(self):
        """The transport connection to the peer stands."""
        reference = self.new_reference()
        self.session = self.map.connect(self.lane, reference)
        # a lane that is resumed keeps its values, whatever the settings say by now
        is_new = self.request.recovered is None
        size = bounded(larger(self.request.checkpoint), self.settings.checkpoint if is_new else None)
        window = bounded_window(self.request.window, self.settings.window if is_new else None)
        asked = Opening(size, window, self.request.mode, self.bind(), self.recovered())
        self.asked_for = asked
        self.host.to_peer(self.mode.connect(reference, self.settings.there, self.settings.here, asked))

    def recovered(self):
        return None if self.request.recovered is None else self.lane.first

    def bind(self):
        if self.request.bind is None:
            return None
        known, bind = self.settings, self.request.bind
        if known.null_bind:
            return Bind()
        return Bind(bind.name if known.agent_mta_name is None else known.agent_mta_name,
                    bind.password if known.agent_osi_password is None else known.agent_osi_password)

    def opening_from_peer(self, name, *values):
        if self.is_open or name not in ("accept", "refuse", "abort") or self.session is None:
            raise Malformed(f"the primitive {name} in place of an answer")
        if name == "abort":
            return self.peer_aborts(*values)
        if name == "refuse":
            return self.refused(*values)
        return self.accepted(*values)

    def refused(self, reason):
        """Only a reason that the peer said itself says that it cannot recover."""
        if self.request.recovered is None and reason == rtse.CANNOT_RECOVER:
            reason = rtse.BUSY
        if reason == rtse.CANNOT_RECOVER:
            self.map.close(self.lane)
        self.reject(f"the peer refuses, reason {reason}", min(reason, rtse.UNACCEPTABLE_MODE))

    def accepted(self, opening, responding):
        if (opening.recovered is None) != (self.request.recovered is None):
            raise Malformed("an answer to another request")
        if not all(peers.is_same(*it) for it in zip(responding, self.settings.there.title) if it[0]):
            return self.wrong_end("another application entity answers")
        answered = self.resumed(opening) if opening.recovered else self.bound(opening)
        if answered is None:
            return None
        self.begin_transfers(answered, True)
        return self.host.to_agent(units.unit(units.ACCEPT, body=rtse.accepted(answered)))

    def wrong_end(self, text, reason=rtse.PERMANENT_PROBLEM):
        self.host.log(text)
        self.end(reason)

    def bound(self, opening):
        """The peer's answer to a bind, as our agent gets it."""
        size, asked = opening.checkpoint, self.asked_for
        if size == 1 or size > asked.checkpoint or not 0 < opening.window <= asked.window:
            return self.wrong_end("the peer answers with values that were not proposed", rtse.INVALID_PARAMETER)
        known, bind = self.settings, opening.bind
        if not peers.binds(known, bind) or known.peer_osi_password not in (None, bind.password):
            return self.wrong_end("the answer has another name or password than the peer's")
        password = bind.password if known.peer_password is None else known.peer_password
        return Opening(smaller(size), opening.window, self.request.mode, Bind(known.peer.encode(), password))

    def resumed(self, opening):
        """An association that is resumed keeps its values."""
        if opening.recovered != self.lane.first:
            raise Malformed("another association is resumed")
        if opening.checkpoint != self.asked_for.checkpoint or opening.window < self.request.window:
            return self.wrong_end("the peer resumes with other values", rtse.TEMPORARY_PROBLEM)
        return Opening(self.request.checkpoint, self.request.window, self.request.mode, None, self.request.recovered)


class Calling(Opened):
    """A peer called the bridge, which calls our agent. `known` has the settings of all peers."""

    is_initiator = False

    def __init__(self, host, lanes, known, mode):
        super().__init__(host, lanes, None, mode)
        self.known, self.connected, self.is_bind = known, None, True

    def read(self, pdu):
        """The primitives of a session PDU. The first one says in which mode the peer speaks."""
        if self.connected is None and older.is_older(pdu):
            self.mode = older.OlderMode()
        return self.mode.read(pdu)

    def opening_from_peer(self, name, *values):
        if name == "abort" and not self.is_open:
            self.is_over = True
            return None
        if name != "connect" or self.connected is not None:
            raise Malformed(f"the primitive {name} while an association is opened")
        self.connected = values[0]
        return self.on_connect(self.connected)

    def on_connect(self, asked):
        opening = asked.opening
        if opening is None:
            raise Malformed("no request of RTSE")
        self.is_bind = opening.recovered is None
        self.two_way = opening.mode == rtse.TWO_WAY
        if opening.mode not in (rtse.MONOLOGUE, rtse.TWO_WAY):
            return self.refuse("a mode that is none", rtse.UNACCEPTABLE_MODE)
        calling = asked.calling._replace(transport=self.host.calling_selector())
        called = asked.called._replace(transport=self.host.called_selector())
        found = peers.candidates(self.known, calling, called, self.host.address())
        if not found:
            return self.refuse("no peer has this address", rtse.VALIDATION_FAILURE if self.is_bind else rtse.BUSY)
        found = [it for it in found if (it.application_context == older.CONTEXT_NAME) == self.is_older()]
        if asked.context_name != self.mode.context_name or not found:
            self.host.log(f"refused: the application context {asked.context_name}")
            raise Refused(self.mode.refuse_context_name())
        return self.on_bind(found, asked, opening) if self.is_bind else self.on_recovery(found, asked, opening)

    def is_older(self):
        return self.mode.context_name == older.CONTEXT_NAME

    def on_bind(self, found, asked, opening):
        found = [it for it in found if peers.binds(it, opening.bind)]
        if len(found) != 1:
            return self.refuse("no peer has this name and address", rtse.VALIDATION_FAILURE)
        known = self.settings = found[0]
        if known.peer_osi_password not in (None, opening.bind.password):
            return self.refuse("another password", rtse.VALIDATION_FAILURE)
        reference = lane_reference(known, asked.reference)
        # a lane of this reference may stand: our agent says so then
        self.lane = self.map.lane_of(known.peer, reference)
        self.lane = self.lane or self.map.begin(known.peer, reference)
        self.waits_for_lane = True
        return None

    def on_recovery(self, found, asked, opening):
        """An association is resumed that the map has, by the peer that the map has it of. Another one is refused so
        that nothing is concluded from it."""
        recovered = opening.recovered
        self.lane = self.map.lane_with([it.peer for it in found], recovered)
        if self.lane is not None:
            self.settings = next(it for it in found if it.peer == self.lane.peer)
        elif len(found) == 1 and found[0].takes_unknown:
            self.settings = found[0]
            self.host.log("a lane that the map does not have is resumed, as the settings say")
            self.lane = self.map.begin(found[0].peer, lane_reference(found[0], recovered), True)
            self.map.connect(self.lane, recovered)
        else:
            return self.refuse(f"the map has no lane of {reference_text(recovered)}", rtse.BUSY)
        self.waits_for_lane = True
        return None

    def agent_is_ready(self):
        """The link to our agent stands."""
        opening, known = self.connected.opening, self.settings
        self.session = self.map.connect(self.lane, self.connected.reference)
        size = smaller(bounded(opening.checkpoint, known.checkpoint))
        window = bounded_window(opening.window, known.window)
        reference, bind = self.lane.reference, None
        if self.is_bind:
            password = opening.bind.password if known.peer_password is None else known.peer_password
            bind = Bind(known.peer.encode(), password)
        asked = Opening(size, window, opening.mode, bind, None if self.is_bind else reference)
        self.host.to_agent(units.open_unit(known.peer.encode(), reference, rtse.request(asked)))

    def agent_is_away(self):
        self.refuse("our agent takes no link", rtse.BUSY)

    def opening_from_agent(self, kind, body):
        if kind == units.ABORT:
            return self.refuse("our agent aborts", rtse.BUSY)
        if kind == units.REJECT:
            reason = rtse.refusal_of(body)
            if reason == rtse.CANNOT_RECOVER:
                self.map.close(self.lane)
            return self.refuse(f"our agent refuses, reason {reason}", reason)
        if kind != units.ACCEPT:
            raise Malformed("a unit in place of an answer")
        return self.accept(rtse.opening_of(body, rtse.ACCEPTED, None))

    def accept(self, opening):
        if (opening.recovered is None) != self.is_bind:
            raise Malformed("an answer to another request")
        known, bind, recovered = self.settings, opening.bind, None
        if self.is_bind:
            bind = Bind() if known.null_bind else Bind(
                bind.name if known.agent_mta_name is None else known.agent_mta_name,
                bind.password if known.agent_osi_password is None else known.agent_osi_password)
        else:
            recovered = self.connected.opening.recovered
        answered = Opening(larger(opening.checkpoint), opening.window, 0, bind, recovered)
        self.begin_transfers(opening, False)
        self.host.to_peer(self.mode.accept(self.connected.reference, known.here, answered))

    def agent_is_gone(self):
        if self.is_open:
            return super().agent_is_gone()
        return self.refuse("our agent ended the link", rtse.BUSY)
