"""What a peer keeps: lanes, what of each activity is durable, the messages to send and those that came.

The record is a list of steps. A step is durable before anything is put that tells of it. Each step is checked against
what stands before it, and is refused where it is not possible, so that a session that was overtaken changes nothing.
"""
import base64
import fcntl
import json
import os
import threading
import zlib

LANES = 64  # open lanes of a responder


class Refused(Exception):
    """A step that is not possible now: `fenced`, `closed`, `unexpected` or `full`."""


class Lane:
    """A lane as the steps left it.

    `send` is idle, sending, ending or dropping, with the activity and what is confirmed of it."""

    def __init__(self, number, role, reference, mode, checkpoint, window, agreed):
        self.number, self.role, self.reference, self.mode = number, role, reference, mode
        self.checkpoint, self.window, self.agreed = checkpoint, window, agreed
        self.open, self.generation = True, 1
        self.send, self.message = ("idle", 0, 0), None
        self.high, self.last, self.pieces = 0, ("none", 0), []

    def size(self):
        """The octets of a piece, or None for a whole activity."""
        return 1024 * self.checkpoint or None

    def told(self):
        send = " ".join(str(it) for it in self.send[:2 if self.send[0] in ("idle", "dropping") else 3])
        last = " ".join(str(it) for it in self.last) if self.last[1] else "none"
        pieces = f" {len(self.pieces)}" if self.last[0] == "partial" else ""
        return f"lane {self.number} {self.role} generation {self.generation} send {send} receive {last}{pieces}"


class State:
    """What the steps say together."""

    def __init__(self):
        self.lanes, self.messages, self.received = [], [], []

    def due(self):
        """The lowest message that waits, or None."""
        return next((n for n, it in enumerate(self.messages) if it[1] == "waits"), None)

    def lane(self, number, generation):
        lane = self.lanes[number - 1]
        if not lane.open:
            raise Refused("closed")
        if lane.generation != generation:
            raise Refused("fenced")
        return lane

    def apply(self, step):
        getattr(self, "do_" + step[0])(*step[1:])

    def do_queue(self, octets):
        self.messages.append([octets, "waits"])

    def do_open(self, role, reference, mode, checkpoint, window, agreed):
        reference = tuple(reference)
        taken = [lane for lane in self.lanes if lane.role == role and lane.open]
        if any(lane.reference == reference for lane in taken):
            raise Refused("unexpected")
        if len(taken) >= LANES:
            raise Refused("full")
        self.lanes.append(Lane(len(self.lanes) + 1, role, reference, mode, checkpoint, window, agreed))

    def do_agree(self, number, generation, checkpoint, window):
        lane = self.lane(number, generation)
        lane.checkpoint, lane.window, lane.agreed = checkpoint, window, True

    def do_bind(self, number):
        lane = self.lanes[number - 1]
        if not lane.open:
            raise Refused("closed")
        lane.generation += 1

    def do_close(self, number, generation):
        lane = self.lane(number, generation)
        if lane.send[0] in ("sending", "ending"):
            self.messages[lane.message][1] = "waits" if lane.send[0] == "sending" else "in doubt"
        lane.open, lane.pieces = False, []

    def do_start(self, number, generation, message):
        lane = self.lane(number, generation)
        if lane.send[0] != "idle" or self.messages[message][1] != "waits":
            raise Refused("unexpected")
        lane.send, lane.message = ("sending", lane.send[1] + 1, 0), message
        self.messages[message][1] = "under way"

    def under_way(self, number, generation, activity, *states):
        lane = self.lane(number, generation)
        if lane.send[0] not in states or lane.send[1] != activity:
            raise Refused("unexpected")
        return lane

    def do_confirm(self, number, generation, activity, checkpoint):
        lane = self.under_way(number, generation, activity, "sending", "ending")
        if checkpoint <= lane.send[2]:
            raise Refused("unexpected")
        lane.send = (lane.send[0], activity, checkpoint)

    def do_ending(self, number, generation, activity):
        lane = self.under_way(number, generation, activity, "sending")
        lane.send = ("ending", activity, lane.send[2])

    def do_abandon(self, number, activity):
        lane = self.lanes[number - 1]
        self.under_way(number, lane.generation, activity, "sending")
        lane.send, self.messages[lane.message][1] = ("dropping", activity, 0), "given up"

    def settled(self, lane, status):
        if lane.send[0] != "dropping":
            self.messages[lane.message][1] = status
        lane.send = ("idle", lane.send[1], 0)

    def do_sent(self, number, generation, activity):
        self.settled(self.under_way(number, generation, activity, "ending"), "sent")

    def do_dropped(self, number, generation, activity):
        self.settled(self.under_way(number, generation, activity, "sending", "ending", "dropping"), "waits")

    def do_refused(self, number, generation, activity, kind, place):
        lane = self.under_way(number, generation, activity, "sending", "ending", "dropping")
        self.settled(lane, f"refused {kind} {place}")

    def do_denied(self, number, generation, activity):
        lane = self.under_way(number, generation, activity, "sending", "ending", "dropping")
        self.settled(lane, "waits" if lane.send[0] == "sending" else "denied")

    def standing(self, number, generation, activity, checkpoint):
        """The lane where piece `checkpoint` of this activity may be made durable now."""
        lane = self.lane(number, generation)
        if lane.last == ("partial", activity):
            if not 1 <= checkpoint <= len(lane.pieces) + 1:
                raise Refused("unexpected")
        elif lane.last[0] == "partial" or activity <= lane.high or checkpoint != 1:
            raise Refused("unexpected")
        return lane

    def do_secure(self, number, generation, activity, checkpoint, piece):
        lane = self.standing(number, generation, activity, checkpoint)
        lane.pieces[checkpoint - 1:] = [piece]
        lane.high, lane.last = activity, ("partial", activity)

    def do_complete(self, number, generation, activity, checkpoint, piece):
        lane = self.standing(number, generation, activity, checkpoint)
        self.received.append(b"".join(lane.pieces[:checkpoint - 1]) + piece)
        lane.high, lane.last, lane.pieces = activity, ("done", activity), []

    def do_drop(self, number, generation, activity):
        lane = self.lane(number, generation)
        if lane.last != ("partial", activity):
            raise Refused("unexpected")
        lane.last, lane.pieces = ("none", 0), []


class Memory:
    """Steps in memory. What was kept is there for whoever opens it again, as after a kill."""

    def __init__(self):
        self.steps, self.lock = [], threading.RLock()

    def news(self, seen):
        return self.steps[seen:]

    def keep(self, step):
        self.steps.append(step)


class Folder:
    """Steps in the file `record` of a folder: a line a step, with a sum in front. A last line that is cut goes."""

    def __init__(self, folder):
        os.makedirs(folder, exist_ok=True)
        self.file = open(os.path.join(folder, "record"), "a+b")
        self.at, self.lock = 0, self

    def __enter__(self):
        fcntl.flock(self.file, fcntl.LOCK_EX)

    def __exit__(self, *_):
        fcntl.flock(self.file, fcntl.LOCK_UN)

    def news(self, _):
        self.file.seek(self.at)
        found = []
        for line in self.file.read().splitlines(keepends=True):
            words = line.rstrip(b"\n").partition(b" ")
            if not line.endswith(b"\n") or words[0] != b"%08x" % zlib.crc32(words[2]):
                self.file.truncate(self.at)
                break
            found.append(tuple(opened(it) for it in json.loads(words[2])))
            self.at += len(line)
        return found

    def keep(self, step):
        words = json.dumps([closed(it) for it in step]).encode()
        line = b"%08x %s\n" % (zlib.crc32(words), words)
        self.file.write(line)
        self.file.flush()
        os.fsync(self.file.fileno())
        self.at += len(line)


def closed(it):
    if isinstance(it, bytes):
        return {"octets": base64.b64encode(it).decode()}
    return [closed(part) for part in it] if isinstance(it, (tuple, list)) else it


def opened(it):
    if isinstance(it, dict):
        return base64.b64decode(it["octets"])
    return tuple(opened(part) for part in it) if isinstance(it, list) else it


class Record:
    """One reader and writer of a store of steps. Several may stand over one store."""

    def __init__(self, store):
        self.store, self.state, self.seen = store, State(), 0
        self.look()

    def look(self):
        """Takes in what others added."""
        with self.store.lock:
            for step in self.store.news(self.seen):
                self.state.apply(step)
                self.seen += 1
        return self.state

    def step(self, *step):
        """Makes a step durable, or raises `Refused` and changes nothing."""
        with self.store.lock:
            self.look()
            self.state.apply(step)
            self.store.keep(step)
            self.seen += 1
