"""The two halves of a lane at one end, on one link: what is put next, and what is answered."""
from apdu import fault_of
from units import (COMPLETED, LONGEST_PIECE, TOO_LONG, UNRECOGNIZED, Abort, Data, Discard, DiscardAck, End, EndAck,
                   Fault, Resume, ResumeAck, Start, Sync, SyncAck)


class NotAllowed(Exception):
    """A unit that these rules do not let come here."""


class Half:
    """What both halves have: the record, and the lane's number and generation on this link."""

    def __init__(self, record, number, generation, say):
        self.record, self.number, self.generation, self.say = record, number, generation, say

    def lane(self):
        return self.record.state.lanes[self.number - 1]

    def make(self, word, *rest):
        """Makes a step of this half."""
        self.record.step(word, self.number, self.generation, *rest)
        told = [f"octets {len(it)}" if isinstance(it, bytes) else str(it) for it in rest]
        self.say(" ".join(["step", word] + told))


class Sender(Half):
    """The sending half. `stage` is where the activity stands on this link."""

    def __init__(self, *of):
        super().__init__(*of)
        self.stage = "quiet" if self.lane().send[0] == "idle" else "opened"
        self.put = self.synced = 0
        self.octets = None

    def quiet(self):
        return self.stage == "quiet"

    def start(self, message):
        self.make("start", message)
        self.stage, self.put, self.synced = "started", 0, 0

    def piece(self, number):
        """Piece `number` of the activity, and whether it is the last."""
        lane = self.lane()
        octets = self.record.state.messages[lane.message][0]
        size = lane.size() or len(octets)
        return octets[(number - 1) * size:number * size], number * size >= len(octets)

    def next(self):
        """The unit to put now; None where the half waits for an answer or has nothing under way."""
        state, activity, confirmed = self.lane().send
        if self.stage == "opened" and state != "dropping" and confirmed >= 1:
            self.stage = "resumed"
            return Resume(activity, confirmed)
        cut = state == "dropping" and self.stage not in ("ended", "discarded", "quiet")
        if self.stage == "opened" or cut:
            self.stage = "discarded"
            return Discard(activity)
        if self.stage == "started":
            self.stage = "next"
            return Start(activity)
        if self.stage == "next" and self.put < confirmed + self.lane().window:
            self.put += 1
            octets, last = self.piece(self.put)
            self.stage = "last" if last else "sync"
            return Data(octets)
        if self.stage == "sync":
            self.stage, self.synced = "next", self.put
            return Sync(self.put)
        if self.stage == "last":
            if state == "sending":
                self.make("ending", activity)
            self.stage = "ended"
            return End(activity)
        return None

    def got(self, unit):
        """Takes an answer of the peer's receiving half."""
        state, activity, confirmed = self.lane().send
        if isinstance(unit, SyncAck) and confirmed < unit.number <= self.synced and state in ("sending", "ending"):
            self.make("confirm", activity, unit.number)
        elif isinstance(unit, SyncAck) and state == "dropping" and self.stage == "discarded":
            pass
        elif isinstance(unit, ResumeAck) and self.stage == "resumed" and unit == (activity, confirmed):
            self.stage, self.put, self.synced = "next", unit.number, unit.number
        elif isinstance(unit, EndAck) and self.stage == "ended" and unit.activity == activity:
            self.settled("sent", activity)
        elif isinstance(unit, DiscardAck) and self.stage == "discarded" and unit.activity == activity:
            self.settled("dropped", activity)
        elif isinstance(unit, Fault) and self.stage not in ("quiet", "opened", "started"):
            self.settled("refused", activity, unit.kind, unit.place)
        else:
            raise NotAllowed()

    def settled(self, *step):
        self.make(*step)
        self.stage = "quiet"

    def aborted(self, reason):
        """Settles what an Abort, or a Reject of a recovery, settles."""
        state, activity, _ = self.lane().send
        if reason == UNRECOGNIZED and state != "idle":
            self.settled("denied", activity)
        elif reason == COMPLETED and state == "ending" and self.stage == "discarded":
            self.settled("sent", activity)


class Receiver(Half):
    """The receiving half.

    `stage` is free, next (a piece is next), piece (one is held) or skip (an activity that was answered by Exception
    still comes)."""

    def __init__(self, *of):
        super().__init__(*of)
        self.stage, self.activity, self.taken, self.held = "free", 0, 0, None

    def is_free(self):
        return self.stage in ("free", "skip")

    def is_done(self):
        return self.lane().last == ("done", self.activity)

    def is_partial(self):
        return self.lane().last == ("partial", self.activity)

    def begin(self, activity, taken):
        self.stage, self.activity, self.taken, self.held = "next", activity, taken, None

    def take(self, unit):
        """Takes a unit of the peer's sending half, makes its step, and gives the answer to put, if any."""
        took = {Start: self.start, Data: self.data, Sync: self.sync, End: self.end, Resume: self.resume,
                Discard: self.discard}
        return took[type(unit)](*unit)

    def start(self, activity):
        if not self.is_free() or activity <= self.lane().high or self.lane().last[0] == "partial":
            raise NotAllowed()
        self.begin(activity, 0)

    def data(self, octets):
        if self.stage == "skip":
            return
        most = self.lane().size() or LONGEST_PIECE
        if self.stage != "next" or not 1 <= len(octets) <= most:
            raise NotAllowed()
        self.stage, self.held = "piece", octets

    def length(self):
        return sum(len(it) for it in self.lane().pieces[:self.taken]) + len(self.held)

    def sync(self, number):
        if self.stage == "skip":
            return None
        if self.stage != "piece" or number != self.taken + 1:
            raise NotAllowed()
        if not self.is_done():
            if self.length() > LONGEST_PIECE:
                return self.found(TOO_LONG, LONGEST_PIECE)
            self.make("secure", self.activity, number, self.held)
        self.stage, self.taken, self.held = "next", number, None
        return SyncAck(number)

    def end(self, activity):
        if self.stage == "skip" and activity == self.activity:
            return None
        if self.stage != "piece" or activity != self.activity:
            raise NotAllowed()
        if not self.is_done():
            if self.length() > LONGEST_PIECE:
                return self.found(TOO_LONG, LONGEST_PIECE)
            fault = fault_of(b"".join(self.lane().pieces[:self.taken]) + self.held)
            if fault:
                return self.found(*fault)
            self.make("complete", activity, self.taken + 1, self.held)
        self.stage, self.held = "free", None
        return EndAck(activity)

    def found(self, kind, place):
        if self.is_partial():
            self.make("drop", self.activity)
        self.stage, self.held = "skip", None
        return Fault(kind, place)

    def resume(self, activity, number):
        if self.stage != "free":
            raise NotAllowed()
        last, of = self.lane().last
        if of != activity or last == "none":
            return Abort(UNRECOGNIZED)
        if number < 1 or last == "partial" and number > len(self.lane().pieces):
            raise NotAllowed()
        self.begin(activity, number)
        return ResumeAck(activity, number)

    def discard(self, activity):
        if self.stage in ("next", "piece") and activity != self.activity:
            raise NotAllowed()
        if self.stage == "skip" and activity == self.activity:
            return None
        self.stage, self.activity, self.held = "free", activity, None
        if self.is_done():
            return Abort(COMPLETED)
        if self.is_partial():
            self.make("drop", activity)
        return DiscardAck(activity)
