"""The hands of a peer that does not keep the rules: they put any unit, and look at what is answered."""
import apdu
import units
from link import BadUnit, Link, Over
from units import (CANNOT_RECOVER, Abort, Accept, Bind, Close, End, Fault, Open, Recover, Reference, Reject, Sync,
                   SyncAck)


def kind_of(wanted):
    """The kind of a unit, which may be told in place of one."""
    return wanted if isinstance(wanted, type) else type(wanted)


class Unexpected(Exception):
    """The peer did something else before the wrong unit could be put."""


class Hands:
    def __init__(self, command, name, connections, values, say):
        self.command, self.name, self.connections, self.values, self.say = command, name, connections, values, say
        self.link, self.size, self.first = None, None, None
        self.strict = False  # whether the very next unit has to be the answer

    def connect(self):
        self.link = Link(self.connections.next(), self.say)

    def drop(self):
        if self.link:
            self.link.drop()

    def put(self, *those):
        for it in those:
            if isinstance(it, bytes):
                self.link.raw(it, f"{len(it)} octets")
            else:
                self.link.put(it)

    def reference(self, more):
        return Reference(self.values.own, self.values.moment, more.encode())

    def request(self):
        it = self.values
        return Open(it.own, self.reference(self.name), it.checkpoint, it.window, it.mode, Bind(it.own, it.password))

    def opened(self):
        """Opens an association: the Open put, or as a responder the Accept."""
        if self.command == "listen":
            return self.accepted(self.came())
        self.connect()
        self.first = self.request()
        self.put(self.first)
        self.agreed(self.until(Accept))
        return self.first

    def recovered(self):
        self.connect()
        self.put(self.first._replace(data=Recover(self.first.reference)))
        self.agreed(self.until(Accept))

    def agreed(self, accept):
        self.size = 1024 * accept.checkpoint or None

    def accepted(self, request):
        accept = self.accept(request)
        self.put(accept)
        self.agreed(accept)
        return accept

    def accept(self, request, **changed):
        """The Accept that answers this Open, with what is changed in it."""
        it = self.values
        checkpoint, window = min(request.checkpoint, it.checkpoint), max(1, min(request.window, it.window))
        return Accept(checkpoint, window, Bind(it.own, it.password))._replace(**changed)

    def came(self, recovering=False):
        """An Open that came. One that recovers a lane of an earlier run is answered cannotRecover: that lane goes."""
        while True:
            self.connect()
            request = self.until(Open)
            if isinstance(request.data, Recover) == recovering:
                return request
            self.put(Reject(CANNOT_RECOVER))
            self.drop()

    def until(self, of):
        """Reads up to a unit of this kind."""
        while True:
            unit = self.link.get()
            if isinstance(unit, of):
                return unit
            if isinstance(unit, (Abort, Reject, Close)):
                raise Unexpected()

    def confirmed(self):
        """Confirms what comes up to End."""
        while True:
            unit = self.until((Sync, End))
            if isinstance(unit, End):
                return unit
            self.put(SyncAck(unit.number))

    def message(self):
        """A message of one small piece."""
        return apdu.message("C=GB;A=SILVER;S=BELL", "C=GB;A=GOLD;S=WATT", b"H0001", b"Hi")

    def answer(self, wanted):
        """The first unit of the kind that is wanted, or that ends an association; None where it just ends."""
        # the end of what is put stands behind the wrong unit, so a peer that takes that unit does not wait for more
        self.link.finish()
        ends = [Abort, Reject, Fault]
        if wanted is not None:
            ends.append(kind_of(wanted))
        try:
            while True:
                unit = self.link.get()
                if self.strict or isinstance(unit, tuple(ends)):
                    return unit
        except Over:
            return None

    def judged(self, does):
        """Runs a kind, and says whether the answer is the one that is wanted."""
        try:
            wanted = does(self)
            found = self.answer(wanted)
            good = type(found) is kind_of(wanted) and (isinstance(wanted, type) or found == wanted)
        except (Over, Unexpected, BadUnit) as why:
            self.say(f"not so: {type(why).__name__} before the answer")
            self.drop()
            return False
        self.drop()
        if good:
            self.say("answered as it has to be")
        else:
            name = "Exception" if wanted is Fault else "the end" if wanted is None else units.told(wanted)
            self.say(f"not so: expected {name}, got {'the end' if found is None else units.told(found)}")
        return good
