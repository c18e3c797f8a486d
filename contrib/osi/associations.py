"""What a bridge has to know after it was stopped: lanes, their session connections, and which number an activity of a
session connection has on its lane. A file to which lines are added; what has to be durable is synced before the call
returns. The file's form stands in docs/OSI.md."""
import fcntl
import os
import time
from collections import OrderedDict

from session import Reference

FIRST_LINE = "mta-osi map 1"
KEPT_ACTIVITIES = 16       # of each lane, the newest ones
KEPT_NAMES = 16            # of each activity, the newest ones, and the first one
KEPT_SESSIONS = 64         # of each lane, the newest ones, and the first one
FORGOTTEN_AFTER = 60       # days after which a lane is forgotten that nothing was heard of
SECONDS_A_DAY = 86_400
COMPACTED_AT = 1 << 20     # octets of a file that is written anew, where no more than a quarter of it is needed
HIGHEST_NUMBER = (1 << 31) - 1
NEAR = 1_000_000           # a number that an identifier spells is taken where it is no more than so far ahead


class BadMap(Exception):
    """The file is no map, or is damaged."""


def part_text(octets):
    return octets.hex() or "-"


def part_of(text):
    return b"" if text == "-" else bytes.fromhex(text)


def reference_text(reference):
    return " ".join(map(part_text, reference))


class Lane:
    """One association of the lane's protocol, with all the session connections that it had."""

    def __init__(self, number, peer, reference):
        self.number, self.peer, self.reference = number, peer, reference
        self.sessions = OrderedDict()       # number to reference, oldest first
        self.activities = OrderedDict()     # (session, identifier) to number, of those that the peer sends
        self.highest = 0                    # of those numbers
        self.unfinished = None              # the highest one, while it may stand in part at our agent
        self.endings = {}                   # number of the peer's activity to octets that end its EXTERNAL
        self.ended = 0                      # the highest activity of ours whose end was put to the peer
        self.started = OrderedDict()        # our activities to the session on which each began
        self.indefinite = set()             # our activities that are put in an EXTERNAL of indefinite length
        self.is_up = False                  # an OSI connection of it was opened, and its end was not seen
        self.is_closed = False
        self.is_lost = False                # it was resumed though the map did not have it
        self.day = 0                        # when something was last heard of it

    @property
    def first(self):
        """The session connection that began it."""
        return next(iter(self.sessions.values()))

    def session_of(self, reference):
        """The newest session connection of this reference, None where the lane had none."""
        return next((it for it in reversed(self.sessions) if self.sessions[it] == reference), None)

    def number_of(self, reference, identifier):
        """The number of an activity that began, or was resumed, on a session connection under this identifier."""
        session = self.session_of(reference)
        return None if session is None else self.activities.get((session, identifier))

    def names_of(self):
        """The names of each activity of the peer, oldest first."""
        found = {}
        for key, number in self.activities.items():
            found.setdefault(number, []).append(key)
        return found

    def trim(self):
        """Forgets what no peer names any more. Of an activity that is resumed again and again the first name stays, by
        which some peers call it on each new session connection, and the newest ones."""
        for place, (number, names) in enumerate(sorted(self.names_of().items(), reverse=True)):
            old = names[1:-KEPT_NAMES] if place < KEPT_ACTIVITIES else names
            for name in old:
                del self.activities[name]
            if place >= KEPT_ACTIVITIES:
                self.endings.pop(number, None)
        while len(self.started) > KEPT_ACTIVITIES:
            self.indefinite.discard(self.started.popitem(last=False)[0])
        named = {session for session, _ in self.activities} | set(self.started.values())
        old = list(self.sessions)[1:-KEPT_SESSIONS]
        for session in (it for it in old if it not in named):
            del self.sessions[session]

    def lines(self):
        """What the file has of it."""
        yield f"lane {self.number} {self.peer} {reference_text(self.reference)} {self.day}"
        for session, reference in self.sessions.items():
            yield f"session {session} {self.number} {reference_text(reference)}"
        yield from self.flags()
        if self.is_closed:
            return
        for (session, identifier), number in self.activities.items():
            yield f"activity {session} {identifier.hex()} {number}"
        yield from self.of_activities()

    def flags(self):
        for word, is_so in (("closed", self.is_closed), ("lost", self.is_lost), ("up", self.is_up)):
            if is_so:
                yield f"{word} {self.number}"

    def of_activities(self):
        if self.highest and self.unfinished is None:
            yield f"done {self.number} {self.highest}"
        for number, ending in self.endings.items():
            yield f"ending {self.number} {number} {ending}"
        for number, session in self.started.items():
            yield f"started {session} {number}"
        for number in self.indefinite:
            yield f"indefinite {self.number} {number}"
        if self.ended:
            yield f"ended {self.number} {self.ended}"


class Map:
    """The lanes of one bridge. Only one process has the file."""

    def __init__(self, path, clock=time.time):
        self.path, self.clock = path, clock
        self.lanes, self.sessions, self.by_reference, self.by_session = {}, {}, {}, {}
        self.highest_lane = self.highest_session = 0
        self.lock = open(path + ".lock", "a", encoding="ascii")
        try:
            fcntl.flock(self.lock, fcntl.LOCK_EX | fcntl.LOCK_NB)
        except OSError as why:
            raise BadMap(f"{path}: another bridge has it") from why
        self.load()
        self.file = None
        self.compact()

    # Reading -----------------------------------------------------------------------------------------------

    def load(self):
        if not os.path.exists(self.path):
            return
        with open(self.path, "rb") as file:
            text = file.read()
        lines = text.split(b"\n")[:-1]              # what no line feed ends was cut off by a stop
        if not lines or lines[0].decode("latin-1") != FIRST_LINE:
            raise BadMap(f"{self.path}: it is no map of a bridge")
        for place, line in enumerate(lines[1:], 2):
            try:
                self.take(line.decode("ascii").split(" "))
            except (ValueError, KeyError, TypeError, UnicodeDecodeError) as why:
                raise BadMap(f"{self.path}: line {place} is damaged") from why

    def take(self, words):
        """One line of the file."""
        word, number, *rest = words
        TAKEN[word](self, int(number), *rest)

    def take_lane(self, number, peer, calling, common, additional, day):
        reference = Reference(*map(part_of, (calling, common, additional)))
        lane = self.lanes[number] = Lane(number, peer, reference)
        lane.day = int(day)
        self.by_reference[peer, reference] = lane
        self.highest_lane = max(self.highest_lane, number)

    def take_session(self, session, number, calling, common, additional):
        lane = self.lanes[int(number)]
        reference = Reference(*map(part_of, (calling, common, additional)))
        lane.sessions[session] = reference
        self.sessions[session] = lane
        self.by_session[lane.peer, reference] = lane
        self.highest_session = max(self.highest_session, session)

    def take_activity(self, session, identifier, number):
        lane, number = self.sessions[session], int(number)
        key = session, bytes.fromhex(identifier)
        lane.activities.pop(key, None)
        lane.activities[key] = number
        if number > lane.highest:
            lane.highest = lane.unfinished = number

    def take_ending(self, number, activity, ending):
        self.lanes[number].endings[int(activity)] = int(ending)

    def take_started(self, session, activity):
        self.sessions[session].started[int(activity)] = session

    def take_indefinite(self, number, activity):
        self.lanes[number].indefinite.add(int(activity))

    def take_ended(self, number, activity):
        lane = self.lanes[number]
        lane.ended = max(lane.ended, int(activity))

    def take_done(self, number, activity):
        lane = self.lanes[number]
        if lane.unfinished == int(activity):
            lane.unfinished = None
        lane.highest = max(lane.highest, int(activity))

    def take_up(self, number):
        self.lanes[number].is_up = True

    def take_down(self, number):
        self.lanes[number].is_up = False

    def take_day(self, number, day):
        self.lanes[number].day = int(day)

    def take_closed(self, number):
        self.lanes[number].is_closed = True

    def take_lost(self, number):
        self.lanes[number].is_lost = True

    # Writing -----------------------------------------------------------------------------------------------

    def day(self):
        return int(self.clock()) // SECONDS_A_DAY

    def add(self, *lines, durable):
        """Takes lines as they are read, and adds them to the file."""
        for line in lines:
            self.take(line.split(" "))
        try:
            self.file.write("".join(f"{line}\n" for line in lines))
            self.file.flush()
            if durable:
                os.fdatasync(self.file.fileno())
        except OSError as why:
            raise BadMap(f"{self.path}: {why.strerror}") from why
        self.size += sum(map(len, lines)) + len(lines)
        if self.size > COMPACTED_AT and self.size > 4 * self.needed:
            self.compact()

    def is_old(self, lane):
        return not lane.sessions or not lane.is_up and self.day() - lane.day > FORGOTTEN_AFTER

    def forget(self, lane):
        del self.lanes[lane.number]
        for session, reference in lane.sessions.items():
            del self.sessions[session]
            if self.by_session.get((lane.peer, reference)) is lane:
                del self.by_session[lane.peer, reference]
        if self.by_reference.get((lane.peer, lane.reference)) is lane:
            del self.by_reference[lane.peer, lane.reference]

    def compact(self):
        """Writes a file of what is needed in the place of the old one."""
        for lane in [it for it in self.lanes.values() if self.is_old(it)]:
            self.forget(lane)
        for lane in self.lanes.values():
            before = set(lane.sessions)
            lane.trim()
            for session in before - set(lane.sessions):
                del self.sessions[session]
        lines = [FIRST_LINE, *(line for lane in self.lanes.values() for line in lane.lines())]
        with open(self.path + ".new", "w", encoding="ascii") as file:
            file.write("".join(f"{line}\n" for line in lines))
            file.flush()
            os.fsync(file.fileno())
            self.needed = self.size = file.tell()
        os.rename(self.path + ".new", self.path)
        folder = os.open(os.path.dirname(os.path.abspath(self.path)), os.O_RDONLY)
        try:
            os.fsync(folder)
        finally:
            os.close(folder)
        if self.file:
            self.file.close()
        self.file = open(self.path, "a", encoding="ascii")

    # What happens ------------------------------------------------------------------------------------------

    def lane_of(self, peer, reference):
        """The lane that this session connection began, None where the map has none."""
        return self.by_reference.get((peer, reference))

    def lane_with(self, peers, reference):
        """The lane with one of these peers that had a session connection of this reference."""
        found = (self.by_session.get((peer, reference)) for peer in peers)
        return next((it for it in found if it is not None), None)

    def begin(self, peer, reference, is_lost=False):
        """A new lane. It is durable with its first session connection."""
        number = self.highest_lane + 1
        lost = [f"lost {number}"] if is_lost else []
        self.add(f"lane {number} {peer} {reference_text(reference)} {self.day()}", *lost, durable=False)
        return self.lanes[number]

    def connect(self, lane, reference):
        """A session connection of a lane is about to be opened, or was. The number of it."""
        lines = [f"up {lane.number}"]
        if lane.session_of(reference) is None:
            lines.insert(0, f"session {self.highest_session + 1} {lane.number} {reference_text(reference)}")
        if lane.day != self.day():
            lines.insert(0, f"day {lane.number} {self.day()}")
        self.add(*lines, durable=True)
        return lane.session_of(reference)

    def end_seen(self, lane):
        self.add(f"down {lane.number}", durable=False)

    def close(self, lane):
        self.add(f"closed {lane.number}", durable=False)

    def next_number(self, lane, identifier):
        """The number of a new activity: the one that its identifier spells, or else the next one."""
        spelled = 0
        if identifier[:1] == b"\x02" and len(identifier) == 2 + identifier[1]:
            spelled = int.from_bytes(identifier[2:], "big")
        if lane.highest < spelled <= min(lane.highest + NEAR, HIGHEST_NUMBER):
            return spelled
        return lane.highest + 1

    def name(self, lane, session, identifier, number):
        """An activity of the peer has this number. Durable before our agent hears of the number."""
        if lane.activities.get((session, identifier)) != number:
            self.add(f"activity {session} {identifier.hex()} {number}", durable=True)

    def done(self, lane, number):
        """Nothing of this activity stands in part at our agent."""
        self.add(f"done {lane.number} {number}", durable=False)

    def ends_with(self, lane, number, ending):
        """So many octets end the EXTERNAL of an activity. Durable before a checkpoint of it is."""
        if lane.endings.get(number, 0) != ending:
            self.add(f"ending {lane.number} {number} {ending}", durable=True)

    def start(self, lane, session, number, durable):
        self.add(f"started {session} {number}", durable=durable)

    def put_indefinite(self, lane, number):
        self.add(f"indefinite {lane.number} {number}", durable=True)

    def end(self, lane, number):
        self.add(f"ended {lane.number} {number}", durable=True)


TAKEN = {"lane": Map.take_lane, "session": Map.take_session, "activity": Map.take_activity,
         "ending": Map.take_ending, "started": Map.take_started, "indefinite": Map.take_indefinite,
         "ended": Map.take_ended, "done": Map.take_done, "up": Map.take_up, "down": Map.take_down,
         "closed": Map.take_closed, "day": Map.take_day, "lost": Map.take_lost}
