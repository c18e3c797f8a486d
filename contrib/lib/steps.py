"""The steps of a history, as mta.spool(5) lays them out: the fields of each kind, and those of a snapshot."""

# The kind of a step: its word, and its fields with their forms: n and N are numbers of four and eight octets, m is a
# moment, o an octet, s a string, l a list of numbers, f a format.
STEPS = {
    1: ("tables", "text:s"),
    2: ("accept", "moment:m apdu:s"),
    3: ("deliver", "item:n recipient:n moment:m"),
    4: ("expand", "item:n recipient:n moment:m"),
    5: ("report", "item:n recipient:n moment:m"),
    6: ("affirm", "item:n recipient:n moment:m"),
    7: ("discard", "item:n recipient:n moment:m"),
    8: ("back", "item:n recipient:n moment:m"),
    9: ("open-lane", "role:o peer:s calling:s common:m given:o additional:s twa:o size:n window:n moment:m"),
    10: ("agree", "lane:n generation:N size:n window:n"),
    11: ("bind", "lane:n generation:N"),
    12: ("start", "lane:n generation:N activity:n item:n recipients:l moment:m"),
    13: ("confirm", "lane:n generation:N activity:n checkpoint:n"),
    14: ("ending", "lane:n generation:N activity:n"),
    15: ("sent", "lane:n generation:N activity:n moment:m"),
    16: ("refused", "lane:n generation:N activity:n fault:o moment:m"),
    17: ("denied", "lane:n generation:N activity:n moment:m"),
    18: ("dropped", "lane:n generation:N activity:n"),
    19: ("abandon", "lane:n activity:n moment:m"),
    20: ("secure", "lane:n generation:N activity:n piece:n octets:s"),
    21: ("complete", "lane:n generation:N activity:n piece:n octets:s moment:m"),
    22: ("drop", "lane:n generation:N activity:n"),
    23: ("close-lane", "lane:n generation:N"),
    25: ("format", "format:f"),
}
SNAPSHOT = 24  # has lists of what has fields of its own

# what the octets of a snapshot stand for, from 0 on
ORIGINS = ("submitted", "received", "own")
STATUSES = ("pending", "delivered", "expanded", "sent", "reported", "affirmed", "discarded", "passed")
SENDING = ("idle", "sending", "ending", "dropping")
RECEIVING = ("none", "partial", "done")


def forms(text):
    return [it.split(":") for it in text.split()]


FIELDS = {kind: forms(fields) for kind, (_, fields) in STEPS.items()}
DELIVERY = forms("mailbox:s item:n moment:m")
LANE = forms("lane:n role:o peer:s calling:s common:m given:o additional:s twa:o agreed:o size:n window:n generation:N")
# the half of a lane that sends, behind its octet, in a snapshot of each format
HALF = {1: forms("activity:n checkpoint:n item:n recipients:l start:m tables:n octets:s"),
        2: forms("activity:n checkpoint:n item:n recipients:l start:m tables:n format:n octets:s")}
SIZES = {"o": 1, "n": 4, "N": 8, "m": 8}


class NotASpool(Exception):
    """The file has other octets than a spool, from a place on."""


class Fields:
    """The fields of a body, which are taken in their order, from behind the octet of its kind."""

    def __init__(self, body):
        self.body, self.at = body, 1

    def octets(self, count):
        before, self.at = self.at, self.at + count
        if self.at > len(self.body):
            raise NotASpool("a step is cut off")
        return self.body[before:self.at]

    def number(self, size=4):
        return int.from_bytes(self.octets(size), "big")

    def string(self):
        return self.octets(self.number())

    def listed(self, one):
        """As many as a count says."""
        return [one() for _ in range(self.number())]

    def one_of(self, words):
        """What an octet stands for."""
        octet = self.number(1)
        if octet >= len(words):
            raise NotASpool(f"an octet of {octet} where {len(words) - 1} is the highest")
        return words[octet]

    def known_format(self):
        found = self.number()
        if found not in HALF:
            raise NotASpool(f"format {found}, which this program does not know")
        return found

    def field(self, form):
        if form in SIZES:
            return self.number(SIZES[form])
        return {"s": self.string, "l": lambda: self.listed(self.number), "f": self.known_format}[form]()

    def fields(self, named):
        return {name: self.field(form) for name, form in named}


# ---- a snapshot

def status_in(it):
    """A status: its word, and its moment and more where it has them."""
    word = it.one_of(STATUSES)
    if word == "pending":
        return (word,)
    moment = it.number(8)
    if word == "sent":
        return word, moment, text_of(it.string())
    if word == "reported":
        reason, is_given, diagnostic = it.number(), it.number(1), it.number()
        return word, moment, reason, diagnostic if is_given else None
    return word, moment


def item_in(it):
    """An item, with the statuses of those for whom the agent is responsible."""
    origin, arrival, octets = it.one_of(ORIGINS), it.number(8), it.string()
    return {"origin": origin, "arrival": arrival, "octets": octets, "statuses": it.listed(lambda: status_in(it))}


def lane_in(it, form):
    """An open lane, with the half that sends and the half that receives."""
    lane = it.fields(LANE)
    lane["sending"] = {"phase": it.one_of(SENDING), **it.fields(HALF[form])}
    lane["receiving"] = {"phase": it.one_of(RECEIVING), "activity": it.number(), "pieces": it.listed(it.string)}
    return lane


def snapshot_in(it):
    """The fields of a snapshot. Its strings are views of the body, which may be long."""
    form = it.known_format()
    found = {"format": form, "moment": it.number(8), "texts": it.listed(it.string)}
    found["items"] = it.listed(lambda: item_in(it))
    found["deliveries"] = it.listed(lambda: it.fields(DELIVERY))
    found["opened"] = it.number()
    found["lanes"] = it.listed(lambda: lane_in(it, form))
    return found


def text_of(octets):
    return bytes(octets).decode("latin-1")


def step_of(body):
    """A body as its word and its fields, by their names."""
    if body[:1] == bytes([SNAPSHOT]):
        it = Fields(memoryview(body))
        word, fields = "snapshot", snapshot_in(it)
    elif not body or body[0] not in STEPS:
        raise NotASpool(f"a step of kind {body[0] if body else 'none'}, which this program does not know")
    else:
        it = Fields(body)
        word, fields = STEPS[body[0]][0], it.fields(FIELDS[body[0]])
    if it.at != len(body):
        raise NotASpool("octets follow the fields of a step")
    return word, fields
