"""The responder of an association: it answers an Open, and asks for the turn where it has something to send."""
from lane import NotAllowed
from record import LANES, Refused
from session import Ended, Session
from units import (BUSY, CANNOT_RECOVER, MONOLOGUE, NOT_VALID, TWO_WAY, WRONG_MODE, Abort, Accept, Bind, Nothing, Open,
                   Please, Recover, Reject)


class Responder(Session):
    def open(self):
        unit = self.get()
        if isinstance(unit, Abort):
            raise Ended(f"aborted by the peer {unit.reason}")
        if not isinstance(unit, Open):
            raise NotAllowed()
        it = self.values
        if unit.name != it.peer or isinstance(unit.data, Nothing):
            self.stop(Reject(NOT_VALID))
        if isinstance(unit.data, Recover):
            return self.recover(unit)
        if unit.data != Bind(it.peer, it.expected):
            self.stop(Reject(NOT_VALID))
        if self.standing(unit.reference):
            self.stop(Reject(NOT_VALID))
        if unit.mode == TWO_WAY and it.mode == MONOLOGUE:
            self.stop(Reject(WRONG_MODE))
        checkpoint = min(unit.checkpoint, it.checkpoint)  # 0 at either end means whole activities
        window = max(1, min(unit.window, it.window))
        self.make_room()
        try:
            self.step("open", "in", tuple(unit.reference), unit.mode, checkpoint, window, True)
        except Refused as why:
            self.stop(Reject(BUSY if str(why) == "full" else NOT_VALID))
        self.lane = self.record.state.lanes[-1]
        self.generation = self.lane.generation
        self.link.put(Accept(checkpoint, window, Bind(it.own, it.password)))

    def standing(self, reference):
        lanes = self.record.look().lanes
        return next((it for it in lanes if it.role == "in" and it.open and it.reference == tuple(reference)), None)

    def make_room(self):
        """Closes the lowest lane that nothing was sent over, where as many are open as this end keeps."""
        lanes = [it for it in self.record.look().lanes if it.role == "in" and it.open]
        unused = [it for it in lanes if it.high == 0 and it.send == ("idle", 0, 0)]
        if len(lanes) >= LANES and unused:
            self.step("close", unused[0].number, unused[0].generation)

    def recover(self, unit):
        self.lane = self.standing(unit.data.reference)
        if not self.lane:
            self.stop(Reject(CANNOT_RECOVER))
        try:
            self.step("bind", self.lane.number)
        except Refused:
            self.stop(Reject(CANNOT_RECOVER))
        self.generation = self.lane.generation
        self.link.put(Accept(self.lane.checkpoint, self.lane.window, unit.data))

    def begin(self):
        if self.two_way() and (not self.sender.quiet() or self.record.look().due() is not None):
            self.please = True
            self.link.put(Please(0))
