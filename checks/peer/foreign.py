"""A foreign peer in place of one side: what it gets and gives is looked at from here alone."""
import hashlib
import socket

import apdu
from initiator import Initiator
from link import Break, Link
from pairs import Wrong
from record import Folder, Memory, Record
from responder import Responder
from session import Values
from units import MONOLOGUE, TWO_WAY


def words(parser):
    parser.add_argument("--call", metavar="HOST:PORT", help="a foreign responder takes the responder's place")
    parser.add_argument("--listen", metavar="HOST:PORT", help="a foreign initiator takes the initiator's place")
    parser.add_argument("--expect", type=int, default=1, help="with --listen: how many messages have to come")
    parser.add_argument("--folder", help="where the record is kept; else in memory")
    parser.add_argument("--name", default="silver")
    parser.add_argument("--peer", default="gold")
    parser.add_argument("--password", default="ours")
    parser.add_argument("--expected", default="theirs")
    parser.add_argument("--mode", choices=("monologue", "twa"), default="monologue",
                        help="what the foreign peer takes")
    parser.add_argument("--from", dest="origin", default="C=GB;A=SILVER;S=BELL")
    parser.add_argument("--to", default="C=GB;A=GOLD;S=WATT")
    parser.add_argument("--moment", default="500101000000Z")
    parser.add_argument("--sizes", default="0,1,1024,300000")
    parser.add_argument("--most", type=int, default=30, help="with --call: break at this many units of a case at most")


def where(text):
    host, _, port = text.rpartition(":")
    return host.strip("[]"), int(port)


class Side:
    """Our side. Its record stays over all cases, and every message has a number of its own."""

    def __init__(self, arguments):
        self.arguments = arguments
        self.store = Folder(arguments.folder) if arguments.folder else Memory()
        self.record = Record(self.store)
        self.numbers, self.lines = len(self.record.state.messages), []

    def queue(self, size):
        it = self.arguments
        self.numbers += 1
        self.record.step("queue", apdu.message(it.origin, it.to, b"M%06d" % self.numbers, apdu.content_of(size)))

    def values(self, mode, checkpoint, window):
        it = self.arguments
        words = [text.encode() for text in (it.name, it.peer, it.password, it.expected)]
        return Values(*words, mode, checkpoint, window, moment=it.moment)

    def session(self, role, connection, values, breaks=None, tap=None):
        link = Link(connection, self.lines.append, breaks)
        link.tap = tap
        return role(link, self.record, values).run(), link.count

    def once(self):
        """No message came twice."""
        sums = [hashlib.sha256(octets).digest() for octets in self.record.look().received]
        if len(set(sums)) != len(sums):
            raise Wrong("a message came twice")
        return len(sums)


def calls(arguments):
    """Binds to the foreign responder: for each case an unbroken session, then breaks at units of it.

    Behind each there are sessions until one closes."""
    side, at = Side(arguments), where(arguments.call)
    modes = (MONOLOGUE, TWO_WAY) if arguments.mode == "twa" else (MONOLOGUE,)

    def transfer(values, size, breaks=None):
        side.queue(size)
        del side.lines[:]
        end, count = side.session(Initiator, socket.create_connection(at), values, breaks)
        for _ in range(6):
            if end == "closed":
                break
            end, _ = side.session(Initiator, socket.create_connection(at), values)
        status = side.record.look().messages[-1][1]
        if end != "closed" or status != "sent":
            told = "\n".join(f"  {line}" for line in side.lines)
            raise Wrong(f"message {side.numbers} of {size} is {status}, the last session {end}\n{told}")
        return count

    for size in [int(it) for it in arguments.sizes.split(",")]:
        for checkpoint in (0, 1):
            for window in (1, 3, 8):
                for mode in modes:
                    values = side.values(mode, checkpoint, window)
                    count = transfer(values, size)
                    step = max(1, count // arguments.most)
                    for number in range(1, count + 1, step):
                        for place in ("after", "before"):
                            transfer(values, size, Break(number, place))
    print(f"{side.numbers} messages M000001 to M{side.numbers:06d} are sent, {side.once()} came", flush=True)
    return 0


def listens(arguments):
    """Takes associations of the foreign initiator, until all that is expected came and one closed.

    Sessions are broken at unit 1, 1, 2, 2 and so on, in turn in its place and behind it."""
    side = Side(arguments)
    listener = socket.create_server(where(arguments.listen))
    print("listening", flush=True)
    values = side.values(TWO_WAY if arguments.mode == "twa" else MONOLOGUE, 64, 8)
    session, end = 0, None
    while end != "closed" or len(side.record.look().received) < arguments.expect:
        session += 1
        breaks = Break((session + 1) // 2, ("after", "before")[session % 2])
        end, _ = side.session(Responder, listener.accept()[0], values, breaks)
    print(f"{side.once()} messages came", flush=True)
    return 0


def run(arguments):
    return calls(arguments) if arguments.call else listens(arguments)
