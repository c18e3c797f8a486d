"""One association over one link, once it is open: who has the turn, what is put and what is read, until it is over."""
import units
from lane import NotAllowed, Receiver, Sender
from link import BadUnit, Over
from record import Refused
from units import (COMPLETED, PROTOCOL, TEMPORARY, TWO_WAY, UNRECOGNIZED, Abort, Close, CloseAck, Data, Discard,
                   DiscardAck, End, EndAck, Fault, Give, Please, Resume, ResumeAck, Start, Sync, SyncAck)

TRANSFER = (Start, Data, Sync, End, Resume, Discard)
ANSWERS = (SyncAck, ResumeAck, EndAck, DiscardAck, Fault)


class Ended(Exception):
    """The session is over, with these words of why."""


class Values:
    """What this end is and asks for, and which unit of a session is one too many."""

    def __init__(self, own, peer, password, expected, mode, checkpoint, window, limit=1_000_000,
                 moment="500101000000Z", give_up=0):
        self.own, self.peer, self.password, self.expected = own, peer, password, expected
        self.mode, self.checkpoint, self.window, self.limit = mode, checkpoint, window, limit
        self.moment, self.give_up = moment, give_up


class Session:
    """What both ends of an association have in common. `open` is the role's own."""

    def __init__(self, link, record, values):
        self.link, self.record, self.values, self.say = link, record, values, link.say
        self.lane = self.generation = None
        self.ours = self.please = False

    def run(self):
        """Runs the association, and tells how it ended."""
        try:
            self.open()
            self.sender = Sender(self.record, self.lane.number, self.generation, self.say)
            self.receiver = Receiver(self.record, self.lane.number, self.generation, self.say)
            self.begin()
            while True:
                self.turn()
        except Ended as why:
            end = str(why)
        except Over:
            end = "broken"
        except Refused as why:
            # overtaken on another link, or the lane is closed
            end = self.last(Abort(TEMPORARY if str(why) == "full" else PROTOCOL))
        except (BadUnit, NotAllowed):
            end = self.last(Abort(PROTOCOL))
        self.link.drop()
        self.say(f"end {end}")
        return end

    def last(self, unit):
        """Puts the unit that ends the association."""
        try:
            self.link.put(unit)
        except Over:
            pass
        return units.told(unit).lower().replace("abort", "aborted").replace("reject", "refused")

    def stop(self, unit):
        raise Ended(self.last(unit))

    def open(self):
        raise NotImplementedError

    def begin(self):
        """What is put right behind the opening."""

    def is_initiator(self):
        return self.lane.role == "out"

    def two_way(self):
        return self.lane.mode == TWO_WAY

    def current(self):
        """This end answers nothing on a link that was overtaken."""
        lane = self.record.look().lanes[self.lane.number - 1]
        if lane.generation != self.generation:
            raise Refused("fenced")

    def step(self, word, *rest):
        self.record.step(word, *rest)
        self.say(" ".join(["step", word] + [str(it) for it in rest if isinstance(it, (int, str))]))

    def get(self):
        """The next unit. The one too many is answered for that, whatever it is."""
        try:
            unit = self.link.get()
        except BadUnit:
            if self.link.got >= self.values.limit:
                self.stop(Abort(TEMPORARY))
            raise
        if self.link.got >= self.values.limit:
            self.stop(Abort(TEMPORARY))
        return unit

    def turn(self):
        """Puts the next unit where this end has one, else reads one."""
        if not self.ours:
            return self.read()
        self.give_up()
        unit = self.sender.next()
        if unit is not None:
            return self.link.put(unit)
        if not self.sender.quiet():
            return self.read()
        message = self.record.look().due()
        if message is not None:
            return self.sender.start(message)
        if self.is_initiator() and not (self.please and self.two_way()):
            return self.close()
        return self.give()

    def give_up(self):
        """Gives the activity up where that was asked for at this unit."""
        send = self.lane.send
        if self.values.give_up and self.link.count >= self.values.give_up and send[0] == "sending":
            self.values.give_up = 0
            self.step("abandon", self.lane.number, send[1])

    def give(self):
        self.link.put(Give())
        self.ours = self.please = False

    def close(self):
        self.link.put(Close())
        unit = self.get()
        if isinstance(unit, Please) and self.two_way():
            return self.give()
        if isinstance(unit, Abort):
            self.aborted(unit.reason)
        if not isinstance(unit, CloseAck):
            raise NotAllowed()
        self.step("close", self.lane.number, self.generation)
        raise Ended("closed")

    def aborted(self, reason):
        if reason in (UNRECOGNIZED, COMPLETED):
            self.sender.aborted(reason)
        raise Ended(f"aborted by the peer {reason}")

    def read(self):
        unit = self.get()
        if isinstance(unit, Abort):
            self.aborted(unit.reason)
        elif isinstance(unit, Please) and self.two_way():
            self.please = self.please or self.ours and self.is_initiator()
        elif self.ours and isinstance(unit, ANSWERS):
            self.sender.got(unit)
        elif not self.ours and isinstance(unit, TRANSFER):
            answer = self.receiver.take(unit)
            if isinstance(answer, Abort):
                self.stop(answer)
            if answer is not None:
                self.current()
                self.link.put(answer)
        elif not self.ours and isinstance(unit, Give) and self.two_way() and self.receiver.is_free():
            self.ours, self.please = True, False
        elif not self.ours and isinstance(unit, Close) and not self.is_initiator() and self.receiver.is_free():
            self.asked_to_close()
        else:
            raise NotAllowed()

    def asked_to_close(self):
        """A Please that was on its way answers a Close; else one is put while an activity is under way."""
        if self.please:
            return
        if self.two_way() and not self.sender.quiet():
            self.please = True
            self.link.put(Please(0))
            return
        self.step("close", self.lane.number, self.generation)
        self.link.put(CloseAck())
        raise Ended("closed")
