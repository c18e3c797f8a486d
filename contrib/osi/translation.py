"""What one side of an association says, said to the other side: units of the lane's protocol and primitives of OSI,
event by event. It holds no message, and says no confirmation that the other side did not say, but the one of a
resumption (`agent_resumes`), which claims nothing that the peer had not confirmed before.

*Agent* is our own one, on its link; *peer* is another maker's, on its OSI connection."""
from collections import deque

import ber
import rtse
import units
from associations import HIGHEST_NUMBER
from ber import Malformed

AGENT, PEER = "agent", "peer"
# What a transfer is at
NONE = "none"                    # nothing is under way on this connection
GOES_ON = "goes on"              # from its start or resumption to its end
ENDED = "ended"                  # its end was put, and is not confirmed
DISCARDING = "discarding"        # its sender discards it, and that is not confirmed
REOPENED = "reopened"            # the peer resumed it from its beginning: it will discard it, or send it anew
RESUMING = "resuming"            # our agent was asked to resume it
GIVEN_UP = "given up"            # our agent was asked to discard what the peer gave up by beginning another one
REFUSED = "refused"              # our agent found that it spells no message

RELEASE_DELAY = 0.5      # seconds in which a peer may ask for the turn before a release, which it cannot refuse
UNIT = 1024              # octets of a unit of checkpoint size


class Transfer:
    """An activity that is under way on this connection."""

    def __init__(self, number, identifier, checkpoint):
        self.number, self.identifier = number, identifier
        self.point = checkpoint + 1              # the next checkpoint of OSI
        self.confirmed_point = checkpoint
        self.is_first = checkpoint == 0          # the EXTERNAL's header is still to come
        self.piece_waits = False                 # a piece of ours, for its Sync or End
        self.tail = b""                          # what stands behind our message
        # of one that the peer sends
        self.octets = bytearray()                # since the last checkpoint
        self.synced = self.confirmed = 2 * checkpoint       # checkpoints of the lane
        self.queue = deque()                     # pieces that wait for the window
        self.held = []                           # what came up to checkpoints, of which one may be the last
        self.left = None                         # octets of the message that are still to come, where it is known
        self.ending = 0                          # octets that end the EXTERNAL
        self.end_was_put = False


class Association:
    """A link of our agent's and an OSI connection. `host` sends what is put: to_agent(octets), to_peer(session PDU);
    it also logs, and waits. `lanes` is the map of lanes, `settings` what is known of the peer."""

    def __init__(self, host, lanes, settings, mode):
        self.host, self.map, self.settings, self.mode = host, lanes, settings, mode
        self.lane = self.session = None          # of the map
        self.is_open = self.is_over = self.closes = self.asked = self.agent_was_asked = False
        self.ends_well = False                   # by a release or refusal that was answered
        self.last_word = None                    # what our agent gets once the end of the OSI connection was seen
        self.turn = None
        self.state, self.transfer = NONE, None
        self.resumed_by_agent = False            # a Resume or Discard was the first of the transfer
        self.size = self.window = self.two_way = 0
        self.waits_for_lane = False

    # What is put -------------------------------------------------------------------------------------------

    def to_agent(self, kind, *numbers, body=b""):
        self.host.to_agent(units.unit(kind, *numbers, body=body))

    def end(self, reason, for_agent=None):
        """Both sides are aborted."""
        self.host.to_peer(self.mode.abort(reason))
        for_agent = reason if for_agent is None else for_agent
        self.last_word = units.unit(units.ABORT, body=rtse.aborted(for_agent))
        self.is_over = True

    def guess(self, text):
        """What comes would have to be guessed: both sides are ended, and nothing is settled by it."""
        self.host.log(f"{text}: both sides are aborted, and nothing is settled by it")
        self.end(rtse.TEMPORARY_PROBLEM)

    def broken(self, text):
        """One side broke the rules of its protocol."""
        self.host.log(text)
        self.end(rtse.PROTOCOL_ERROR)

    def agent_is_gone(self):
        self.host.to_peer(self.mode.abort(rtse.TEMPORARY_PROBLEM))
        self.is_over = True

    @property
    def takes_from_peer(self):
        """Whether the next primitive of the peer may be taken: an answer of our agent is not waited for first."""
        if self.waits_for_lane or self.state in (RESUMING, GIVEN_UP):
            return False
        return self.transfer is None or not self.transfer.queue

    def begin(self, state, number, identifier, checkpoint=0):
        self.state, self.transfer = state, Transfer(number, identifier, checkpoint)
        self.resumed_by_agent = False

    def over(self):
        """The transfer is over."""
        self.state, self.transfer = NONE, None

    # Events ------------------------------------------------------------------------------------------------

    def from_agent(self, kind, body):
        if not self.is_open:
            return self.opening_from_agent(kind, body)
        turn, states, does = FROM_AGENT.get(kind, (None, (), None))
        if self.closes and kind not in (units.CLOSE_ACK, units.PLEASE, units.ABORT):
            raise Malformed("a unit of our agent behind the end")
        if does is None or turn and turn != self.turn or self.state not in states:
            raise Malformed(f"unit {kind} of our agent, where a transfer is {self.state}")
        numbers = units.numbers_of(kind, body) if kind in units.NUMBERS else [body]
        return does(self, *numbers)

    def read(self, pdu):
        """The primitives of a session PDU."""
        return self.mode.read(pdu)

    def from_peer(self, name, *values):
        if not self.is_open or name in OPENING:
            return self.opening_from_peer(name, *values)
        turn, states, does = FROM_PEER.get(name, (None, (), None))
        if self.closes and name not in ("release_answer", "please", "abort"):
            raise Malformed("a primitive behind a release")
        if does is None or turn and turn != self.turn or self.state not in states:
            raise Malformed(f"the primitive {name}, where a transfer is {self.state}")
        return does(self, *values)

    def transfer_is(self, number):
        if number != self.transfer.number:
            raise Malformed("another activity than the one under way")

    # Our agent sends ---------------------------------------------------------------------------------------

    def agent_starts(self, number):
        if number > HIGHEST_NUMBER:
            raise Malformed("an activity whose number the session has no room for")
        self.begin(GOES_ON, number, ber.integer(number))
        if self.settings.new_references:
            self.map.start(self.lane, self.session, number, durable=True)
        self.host.to_peer(self.mode.start(self.transfer.identifier))

    def agent_sends(self, body):
        it, piece = self.transfer, ber.only(ber.OCTET_STRING, body)
        if it.piece_waits or not piece:
            raise Malformed("a piece in front of the Sync of another one")
        head = b""
        if it.is_first:
            head, it.tail = self.mode.wrapper(piece)
            if it.tail:
                self.map.put_indefinite(self.lane, it.number)
        it.piece_waits, it.is_first = head + piece, False

    def agent_syncs(self, point):
        it = self.transfer
        if not it.piece_waits or point != it.point:
            raise Malformed("a Sync that does not follow its piece")
        self.host.to_peer(self.mode.data(it.piece_waits))
        self.host.to_peer(self.mode.at_point("minor", point))
        it.piece_waits, it.point = False, point + 1

    def agent_ends(self, number):
        it = self.transfer
        self.transfer_is(number)
        if not it.piece_waits:
            raise Malformed("an End without a piece")
        if self.settings.denies_after_end:
            self.map.end(self.lane, number)
        self.host.to_peer(self.mode.data(it.piece_waits + it.tail))
        self.host.to_peer(self.mode.at_point("end", it.point))
        it.piece_waits, self.state = False, ENDED

    def old_session(self, number):
        """The session connection on which our activity began."""
        session = self.lane.started.get(number)
        return self.lane.first if session is None else self.lane.sessions[session]

    def agent_resumes(self, number, point):
        """Our agent resumes behind what the peer confirmed itself: so the confirmation of a resumption, which OSI does
        not have, claims nothing. A peer that has forgotten the activity aborts."""
        self.begin(GOES_ON, number, ber.integer(number), point)
        self.resumed_by_agent = True
        it = self.transfer
        it.tail = b"\0\0\0\0" if number in self.lane.indefinite else b""
        self.host.to_peer(self.mode.resume(it.identifier, it.identifier, point, self.old_session(number)))
        self.to_agent(units.RESUME_ACK, number, point)

    def agent_discards(self, number):
        if self.state == NONE:
            if self.settings.denies_after_end and self.lane.ended >= number:
                return self.deny()
            self.begin(DISCARDING, number, ber.integer(number))
            self.resumed_by_agent = True
            name = self.transfer.identifier
            self.host.to_peer(self.mode.resume(name, name, 0, self.old_session(number)))
        self.transfer_is(number)
        self.state = DISCARDING
        return self.host.to_peer(self.mode.discard())

    def deny(self):
        """The peer is one that would confirm the discarding of what it completed (so the settings say), and our agent
        would send it again. It is told in place of this that the peer does not know the activity: it reports it."""
        self.host.log("an activity whose end was put is denied, as the settings say")
        self.end(rtse.TEMPORARY_PROBLEM, rtse.UNRECOGNIZED_ACTIVITY)

    def peer_confirms_point(self, point):
        it = self.transfer
        if not it.confirmed_point < point < it.point:
            raise Malformed("a checkpoint that was not put is confirmed")
        it.confirmed_point = point
        if self.state != DISCARDING:
            self.to_agent(units.SYNC_ACK, point)

    def peer_confirms_end(self, point):
        if point != self.transfer.point:
            raise Malformed("another end is confirmed")
        self.to_agent(units.END_ACK, self.transfer.number)
        self.over()

    def peer_confirms_discard(self):
        self.to_agent(units.DISCARD_ACK, self.transfer.number)
        self.over()

    def peer_objects(self):
        """An exception of the peer may mean no room, an error of its own, or a message that is none. Our agent's
        Exception would say the last of these, and end in a report, so both sides are aborted."""
        self.guess("the peer reported an exception")

    # The peer sends ----------------------------------------------------------------------------------------

    def peer_starts(self, identifier):
        """A new activity has a new number, which is durable before our agent hears of it. What the peer left in part
        it has given up, so our agent is asked first to discard that."""
        number = self.map.next_number(self.lane, identifier)
        left = self.lane.unfinished
        self.begin(GOES_ON, number, identifier)
        if left is not None:
            return self.give_up(left)
        return self.start_at_agent()

    def give_up(self, number):
        self.state, self.given_up = GIVEN_UP, number
        self.to_agent(units.DISCARD, number)

    def start_at_agent(self):
        it = self.transfer
        self.state = GOES_ON
        self.map.name(self.lane, self.session, it.identifier, it.number)
        self.to_agent(units.START, it.number)

    def peer_sends(self, octets):
        it = self.transfer
        if self.state == REFUSED:
            return
        if self.state == REOPENED:
            self.peer_sends_anew()
        it.octets += octets
        most = (self.size + 1) * UNIT if self.size else units.LONGEST_PIECE + UNIT
        if len(it.octets) > most:
            raise Malformed(f"more than {most} octets up to a checkpoint")

    def peer_sends_anew(self):
        """It resumed the activity from its beginning: what stands of it goes, and it gets a new number."""
        left = self.lane.unfinished
        self.transfer.number = self.map.next_number(self.lane, b"")
        if left is not None:
            return self.give_up(left)
        return self.start_at_agent()

    def peer_syncs(self, point):
        it = self.transfer
        if point != it.point or not self.size:
            raise Malformed("another checkpoint")
        it.point += 1
        if self.state != REFUSED and it.octets:
            self.pieces_come(is_last=False)
        elif self.state != REFUSED:
            raise Malformed("a checkpoint without data")

    def peer_ends(self, point):
        it = self.transfer
        if point != it.point:
            raise Malformed("another checkpoint")
        if self.state == REFUSED:
            return
        self.pieces_come(is_last=True)
        self.state = ENDED

    def message_octets(self):
        """What came since the last checkpoint, without the header of the EXTERNAL."""
        it = self.transfer
        octets, it.octets = bytes(it.octets), bytearray()
        if it.is_first:
            octets, it.ending = self.mode.unwrapped(octets)
            it.is_first = False
            it.left = rtse.message_size(octets)
        if it.left is not None:
            it.left -= len(octets)
        return octets

    def pieces_come(self, is_last):
        """What came up to a checkpoint, for our agent: as two pieces with a Sync behind each, but for the last one. So
        checkpoint n is 2 n there, and nothing has to be remembered for a resumption."""
        it = self.transfer
        it.held.append(self.message_octets())
        if is_last:
            self.cut_end()
            last = it.held.pop()
            self.release_held(holds=False)
            return self.put_last(last)
        if not it.held[-1]:
            raise Malformed("a checkpoint without octets of the message")
        if it.ending:
            self.map.ends_with(self.lane, it.number, it.ending)
        # where the window is 1 nothing comes before the confirmation
        return self.release_held(holds=it.ending and self.window > 1 and not (it.left is not None and it.left > 0))

    def may_be_end(self, parts):
        """Whether these parts may be nothing but what ends the EXTERNAL."""
        octets = b"".join(parts)
        return len(octets) <= self.transfer.ending and not octets.strip(b"\0")

    def release_held(self, holds):
        """Puts what came, but for a part that may be the last one, which has no Sync behind it: behind it there came
        nothing, or what may be the end of an EXTERNAL alone. The header of the message says how much is still to come;
        after a restart of the bridge that is not known."""
        held = self.transfer.held
        while held and not (holds and self.may_be_end(held[1:])):
            part = held.pop(0)
            if len(part) < 2:
                raise Malformed("a checkpoint behind a single octet")
            cut = min(self.size * UNIT, len(part) - 1)
            self.put_piece(part[:cut], units.SYNC)
            self.put_piece(part[cut:], units.SYNC)

    def cut_end(self):
        """Takes what ends the EXTERNAL from what was held."""
        it = self.transfer
        left = it.ending
        while left and it.held:
            part = it.held.pop()
            kept = part[:max(0, len(part) - left)]
            if part[len(kept):].strip(b"\0"):
                raise Malformed("the end of an EXTERNAL")
            left -= len(part) - len(kept)
            if kept:
                it.held.append(kept)
        if left or not it.held or not it.held[-1]:
            raise Malformed("an end without octets of the message")

    def put_last(self, part):
        cut = self.size * UNIT or len(part)
        if part[cut:]:
            self.put_piece(part[:cut], units.SYNC)
        self.put_piece(part[cut:] or part, units.END)

    def put_piece(self, piece, behind):
        self.transfer.queue.append((piece, behind))
        self.pump()

    def pump(self):
        """Puts pieces as long as the window allows."""
        it = self.transfer
        while it.queue and it.synced - it.confirmed < self.window:
            piece, behind = it.queue.popleft()
            self.to_agent(units.DATA, body=ber.element(ber.OCTET_STRING, piece))
            if behind == units.END:
                self.to_agent(units.END, it.number)
                it.end_was_put = True
            else:
                it.synced += 1
                self.to_agent(units.SYNC, it.synced)

    def agent_confirms_piece(self, number):
        """One of two checkpoints of our agent is one of the peer's."""
        it = self.transfer
        if not it.confirmed < number <= it.synced:
            raise Malformed("a Sync that was not put is confirmed")
        before, it.confirmed = it.confirmed, number
        if number // 2 > before // 2:
            self.host.to_peer(self.mode.at_point("minor_ack", number // 2))
        self.pump()

    def agent_confirms_end(self, number):
        it = self.transfer
        self.transfer_is(number)
        if not it.end_was_put:
            raise Malformed("an End that was not put is confirmed")
        self.map.done(self.lane, number)
        self.host.to_peer(self.mode.at_point("end_ack", it.point))
        self.over()

    def agent_objects(self, fault):
        """Our agent found that the octets spell no message, and has dropped them."""
        if len(fault) != 5:
            raise Malformed("an Exception of another length")
        self.map.done(self.lane, self.transfer.number)
        self.transfer.queue.clear()
        self.transfer.held.clear()
        self.state = REFUSED
        self.host.to_peer(self.mode.exception())

    def peer_resumes(self, identifier, old, point, reference):
        """Only what the map has is resumed. Of an activity that never began at our agent nothing can stand: it has a
        number that no activity had. One of another session connection than the lane's is not guessed."""
        known = self.lane.sessions[self.session] if reference is None else reference
        if self.lane.session_of(known) is None:
            return self.guess("an activity of an unknown session connection is resumed")
        number = self.lane.number_of(known, old)
        if number is None and (point or self.lane.is_lost):
            return self.guess("an unknown activity is resumed")
        self.begin(RESUMING if point else REOPENED, number, identifier, point)
        it = self.transfer
        if number is None:
            it.number = number = self.map.next_number(self.lane, old)
        self.map.name(self.lane, self.session, identifier, number)
        it.ending = self.lane.endings.get(number, 0)
        return self.to_agent(units.RESUME, number, 2 * point) if point else None

    def agent_confirms_resumption(self, number, point):
        it = self.transfer
        self.transfer_is(number)
        if point != it.synced:
            raise Malformed("another resumption is confirmed")
        self.state = GOES_ON

    def peer_discards(self):
        it = self.transfer
        if self.state == REFUSED:
            # our agent said by its Exception that nothing stands, and says nothing more of this activity
            self.host.to_peer(self.mode.bare("discard_ack"))
            return self.over()
        it.queue.clear()
        self.state = DISCARDING
        return self.to_agent(units.DISCARD, it.number)

    def agent_confirms_discard(self, number):
        if self.state == GIVEN_UP:
            if number != self.given_up:
                raise Malformed("another activity was discarded")
            self.map.done(self.lane, number)
            return self.start_at_agent()
        self.transfer_is(number)
        self.map.done(self.lane, number)
        self.host.to_peer(self.mode.bare("discard_ack"))
        return self.over()

    # The turn, and the end ---------------------------------------------------------------------------------

    def agent_asks(self, body):
        ber.number(ber.only(ber.INTEGER, body))
        if self.closes:
            # a release cannot be refused without a functional unit that no peer of this kind has
            return self.end(rtse.TEMPORARY_PROBLEM)
        self.asked = True
        return self.host.to_peer(self.mode.please(0))

    def peer_asks(self):
        """One that crosses a release is lost with the association. One of an initiator says nothing that our agent does
        not do by itself."""
        if not self.two_way:
            raise Malformed("the turn is asked for, where only one end sends")
        if self.closes or not self.is_initiator:
            return
        self.host.cancel()
        self.agent_was_asked = True
        self.to_agent(units.PLEASE, body=ber.integer(0))

    def agent_gives(self):
        self.needs_two_way()
        self.turn, self.agent_was_asked = PEER, False
        self.host.to_peer(self.mode.bare("give"))

    def peer_gives(self):
        self.needs_two_way()
        self.turn, self.asked = AGENT, False
        self.host.to_peer(self.mode.bare("give_ack"))
        self.to_agent(units.GIVE)

    def needs_two_way(self):
        if not self.two_way or self.closes:
            raise Malformed("the turn is given, where only one end sends")

    def peer_takes_turn(self):
        """The acknowledgement of the turn says nothing of a message."""

    def agent_closes(self):
        if not self.is_initiator or self.closes:
            raise Malformed("a Close")
        if self.agent_was_asked:
            return None        # the two crossed: that the turn is asked for answers the Close
        if self.two_way:
            return self.host.later(RELEASE_DELAY)
        return self.release()

    def release(self):
        self.closes = True
        self.host.to_peer(self.mode.release())

    def peer_releases(self):
        if self.is_initiator:
            raise Malformed("a release by the end that did not open")
        if self.asked:
            # our agent waits for the turn, and does not answer a Close before
            return self.guess("the peer releases while our agent asks for the turn")
        self.closes = True
        return self.to_agent(units.CLOSE)

    def agent_closed(self):
        if not self.closes or self.is_initiator:
            raise Malformed("a CloseAck")
        self.map.close(self.lane)
        self.host.log("association closed")
        self.host.to_peer(self.mode.release_answer())
        self.is_over = self.ends_well = True

    def peer_released(self):
        if not self.closes or not self.is_initiator:
            raise Malformed("a release that was not asked for is answered")
        self.map.close(self.lane)
        self.host.log("association closed")
        self.last_word = units.unit(units.CLOSE_ACK)
        self.is_over = self.ends_well = True

    def agent_aborts(self, body):
        """An abort that settles something is passed on only where it answers what the peer put."""
        reason = rtse.abort_reason(body)
        settles = {rtse.TRANSFER_COMPLETED: self.state == DISCARDING and self.turn == PEER,
                   rtse.UNRECOGNIZED_ACTIVITY: self.state == RESUMING}
        if self.state == GIVEN_UP and reason == rtse.TRANSFER_COMPLETED:
            self.map.done(self.lane, self.given_up)
        if reason > rtse.TRANSFER_COMPLETED or not settles.get(reason, True):
            reason = rtse.TEMPORARY_PROBLEM
        self.host.to_peer(self.mode.abort(reason))
        self.is_over = True

    def peer_aborts(self, reason):
        """The same the other way. An abort without a reason settles nothing."""
        settles = {rtse.TRANSFER_COMPLETED: self.state == DISCARDING and self.turn == AGENT,
                   rtse.UNRECOGNIZED_ACTIVITY: self.resumed_by_agent}
        self.host.log(f"the peer aborts, reason {reason}")
        if reason is None or reason > rtse.TRANSFER_COMPLETED or not settles.get(reason, True):
            reason = rtse.TEMPORARY_PROBLEM
        self.last_word = units.unit(units.ABORT, body=rtse.aborted(reason))
        self.is_over = True


ANY = (NONE, GOES_ON, ENDED, DISCARDING, REOPENED, RESUMING, GIVEN_UP, REFUSED)
OPENING = ("connect", "accept", "refuse")

# Event: who has the turn, what the transfer is at, and what is done
FROM_AGENT = {
    units.START: (AGENT, (NONE,), Association.agent_starts),
    units.DATA: (AGENT, (GOES_ON,), Association.agent_sends),
    units.SYNC: (AGENT, (GOES_ON,), Association.agent_syncs),
    units.END: (AGENT, (GOES_ON,), Association.agent_ends),
    units.RESUME: (AGENT, (NONE,), Association.agent_resumes),
    units.DISCARD: (AGENT, (NONE, GOES_ON), Association.agent_discards),
    units.SYNC_ACK: (PEER, (GOES_ON, ENDED, DISCARDING), Association.agent_confirms_piece),
    units.END_ACK: (PEER, (ENDED,), Association.agent_confirms_end),
    units.RESUME_ACK: (PEER, (RESUMING,), Association.agent_confirms_resumption),
    units.DISCARD_ACK: (PEER, (DISCARDING, GIVEN_UP), Association.agent_confirms_discard),
    units.EXCEPTION: (PEER, (GOES_ON, ENDED), Association.agent_objects),
    units.PLEASE: (None, ANY, Association.agent_asks),
    units.GIVE: (AGENT, (NONE,), Association.agent_gives),
    units.CLOSE: (AGENT, (NONE,), Association.agent_closes),
    units.CLOSE_ACK: (PEER, (NONE,), Association.agent_closed),
    units.ABORT: (None, ANY, Association.agent_aborts),
}
FROM_PEER = {
    "start": (PEER, (NONE,), Association.peer_starts),
    "data": (PEER, (GOES_ON, REOPENED, REFUSED), Association.peer_sends),
    "minor": (PEER, (GOES_ON, REFUSED), Association.peer_syncs),
    "end": (PEER, (GOES_ON, REFUSED), Association.peer_ends),
    "resume": (PEER, (NONE,), Association.peer_resumes),
    "discard": (PEER, (GOES_ON, ENDED, REOPENED, REFUSED), Association.peer_discards),
    "minor_ack": (AGENT, (GOES_ON, ENDED, DISCARDING), Association.peer_confirms_point),
    "end_ack": (AGENT, (ENDED,), Association.peer_confirms_end),
    "discard_ack": (AGENT, (DISCARDING,), Association.peer_confirms_discard),
    "exception": (AGENT, (GOES_ON, ENDED, DISCARDING), Association.peer_objects),
    "interrupt": (PEER, (GOES_ON, ENDED, REOPENED, REFUSED), lambda it: it.guess("the peer interrupts an activity")),
    "please": (None, ANY, Association.peer_asks),
    "give": (PEER, (NONE,), Association.peer_gives),
    "give_ack": (PEER, ANY, Association.peer_takes_turn),
    "release": (PEER, (NONE,), Association.peer_releases),
    "release_answer": (None, ANY, Association.peer_released),
    "abort": (None, ANY, Association.peer_aborts),
}
