"""The initiator of an association: it opens a lane, or recovers the one that stands, and has the turn first."""
from lane import NotAllowed, Sender
from session import Ended, Session
from units import (CANNOT_RECOVER, PARAMETER, PERMANENT, Abort, Accept, Bind, Open, Recover, Reference, Reject)


class Initiator(Session):
    def open(self):
        self.choose()
        lane, it = self.lane, self.values
        reference = Reference(*lane.reference)
        name = it.own if not self.recovering else reference.calling
        data = Recover(reference) if self.recovering else Bind(it.own, it.password)
        self.link.put(Open(name, reference, lane.checkpoint, lane.window, lane.mode, data))
        unit = self.get()
        if isinstance(unit, Abort):
            self.early(unit.reason)
        if isinstance(unit, Reject):
            self.rejected(unit.reason)
        if not isinstance(unit, Accept):
            raise NotAllowed()
        self.accepted(unit)
        self.ours = True

    def choose(self):
        """The lowest lane that stands is recovered. One that was never agreed is closed, and another is opened."""
        for lane in self.record.look().lanes:
            if lane.role == "out" and lane.open and not lane.agreed:
                self.step("close", lane.number, lane.generation)
        stands = [lane for lane in self.record.state.lanes if lane.role == "out" and lane.open]
        self.recovering = bool(stands)
        if stands:
            self.step("bind", stands[0].number)
            self.lane = stands[0]
        else:
            it, number = self.values, len(self.record.state.lanes) + 1
            reference = (it.own, it.moment, b"%010d" % number)
            self.step("open", "out", reference, it.mode, it.checkpoint, it.window, False)
            self.lane = self.record.state.lanes[number - 1]
        self.generation = self.lane.generation

    def half(self):
        return Sender(self.record, self.lane.number, self.generation, self.say)

    def early(self, reason):
        """An Abort in place of an answer: unrecognizedActivity settles what is under way."""
        self.half().aborted(reason)
        raise Ended(f"aborted by the peer {reason}")

    def rejected(self, reason):
        if not self.recovering or reason == CANNOT_RECOVER:
            if self.recovering:
                self.half().aborted(2)
            self.step("close", self.lane.number, self.generation)
        raise Ended(f"rejected {reason}")

    def accepted(self, unit):
        """The kind of the answer is looked at first, then who answered, then the values."""
        lane, it = self.lane, self.values
        if self.recovering:
            if unit.data != Recover(Reference(*lane.reference)):
                raise NotAllowed()
        elif not isinstance(unit.data, Bind):
            raise NotAllowed()
        elif unit.data != Bind(it.peer, it.expected):
            self.stop(Abort(PERMANENT))
        above = unit.checkpoint > lane.checkpoint or unit.window > lane.window or unit.window == 0
        if above or lane.agreed and (unit.checkpoint, unit.window) != (lane.checkpoint, lane.window):
            self.stop(Abort(PARAMETER))
        if not lane.agreed:
            self.step("agree", lane.number, self.generation, unit.checkpoint, unit.window)
