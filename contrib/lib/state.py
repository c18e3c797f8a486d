"""What the steps of a spool leave: items with their recipients, lanes, mailboxes.

It goes by mta.spool(5) and the manual's "What becomes of a recipient": which items a step makes, to whom a report
goes. It trusts the spool, and checks nothing: `mta spool` is the judge.
"""
import p1
from p1 import Recipient, made_apdu
from steps import NotASpool, text_of

TOO_LONG = 11  # the kind of the fault for which a peer refuses octets that are too many
LIST_KEEPS, LIST_BACK = "keep", "back"


class Tables:
    """What the text of the tables has of lists and mailboxes."""

    def __init__(self, text=""):
        self.text, self.lists, self.mailboxes = text, {}, {}
        self.domain = self.name = None
        for line in text.split("\n"):
            word, _, rest = line.partition(" ")
            if word == "mailbox":
                key, _, name = rest.partition(" ")
                self.mailboxes[p1.name_from(name).normal()] = key
            elif word == "list":
                key, policy, name = rest.split(" ", 2)
                self.lists[key] = (p1.name_from(name), policy, [])
            elif word == "member":
                key, _, name = rest.partition(" ")
                self.lists[key][2].append(p1.name_from(name))
            elif word == "domain":
                self.domain = rest
            elif word == "name":
                self.name = rest

    def list_of(self, name):
        """The list of this name: its policy and its members."""
        return next((it for it in self.lists.values() if it[0].normal() == name.normal()), None)


def are_over(statuses):
    """Whether nothing is owed, and no list was expanded, to which a report may come back."""
    return not any(it is not None and it[0] in ("pending", "expanded") for it in statuses)


class Item:
    """An item, the moment at which it arrived, and for each of its recipients the status, None where there is none.

    `source` is the number of the message of which an own item is the copy for the members of a list, where its octets
    are not at hand; `is_emptied` says that a snapshot dropped its content, which nobody wants any more."""

    def __init__(self, number, apdu, arrival, origin):
        self.number, self.apdu, self.arrival, self.origin = number, apdu, arrival, origin
        self.source, self.octets, self.is_emptied = None, None, False
        self.statuses = [("pending",) if it.is_set(0) else None for it in apdu.recipients]

    def begin(self, statuses, is_delivered):
        """Sets what a snapshot says: the statuses of those for whom this agent is responsible."""
        places = [at for at, it in enumerate(self.statuses) if it is not None]
        if len(places) != len(statuses):
            raise NotASpool(f"item {self.number} of the snapshot has {len(statuses)} statuses for {len(places)}")
        for at, status in zip(places, statuses):
            self.statuses[at] = status
        is_wanted = is_delivered or any(it[0] in ("pending", "delivered") for it in statuses)
        self.is_emptied = self.apdu.kind == "message" and not is_wanted and not self.apdu.content

    def pending(self):
        return [at for at, it in enumerate(self.statuses, 1) if it == ("pending",)]


class Lane:
    """A lane: its peer, and what it sends and has received in part."""

    def __init__(self, number, peer, is_caller, size, window):
        self.number, self.peer, self.is_caller, self.size, self.window = number, peer, is_caller, size, window
        self.generation = 1
        self.phase, self.activity, self.confirmed, self.item, self.recipients = "idle", 0, 0, None, []
        self.receiving, self.received, self.pieces = "none", 0, []

    def begin(self, generation, sending, receiving):
        """Sets what a snapshot says."""
        self.generation = generation
        self.phase, self.activity, self.confirmed = sending["phase"], sending["activity"], sending["checkpoint"]
        self.item, self.recipients = sending["item"] or None, sending["recipients"]
        self.receiving, self.received = receiving["phase"], receiving["activity"]
        self.pieces = [bytes(it) for it in receiving["pieces"]]


class State:
    """What the steps so far leave. `take` says what a step meant: the items that it made, and its item, recipients and
    lane, and how to ask for its mailbox."""

    def __init__(self, keep_octets=(), keep_all=False):
        self.tables, self.items, self.moment, self.format = Tables(), [], 0, 1
        self.opened, self.lanes = 0, {}  # how many lanes were opened, and those that are open, by their numbers
        self.keep_octets = keep_octets  # the numbers of the items that are kept with their octets
        self.keep_all = keep_all  # else None stands in the place of an item of which no step can speak any more
        self.sessions, self.closed = [], []  # moments at which sessions began, and ended with the lane closed

    def item(self, number):
        return self.items[number - 1]

    def is_kept(self, number):
        return self.keep_all or number in self.keep_octets

    def take(self, word, fields):
        self.moment = fields.get("moment", self.moment)
        before = len(self.items)
        meant = getattr(self, "take_" + word.replace("-", "_"))(**fields) or {}
        meant.setdefault("made", self.items[before:])
        for item in (meant.get("item"), *meant["made"]):
            if item is not None and not self.is_kept(item.number) and are_over(item.statuses):
                self.items[item.number - 1] = None
        return meant

    def added(self, apdu, origin):
        made = Item(len(self.items) + 1, apdu, self.moment, origin)
        self.items.append(made)
        return made

    def taken(self, octets, origin):
        """The item of an APDU that was taken."""
        made = self.added(p1.apdu_of(octets), origin)
        if made.number in self.keep_octets:
            made.octets = octets
        return made

    def pending(self):
        """Each item and recipient that is owed something."""
        return [(it, at) for it in self.items if it is not None for at in it.pending()]

    # ---- what is made

    def destination(self, apdu):
        """To whom a report on a message or probe goes: back along its lists to the originator; None where one keeps
        its reports."""
        for name in reversed(apdu.history):
            found = self.tables.list_of(name)
            if found is None:
                return name
            if found[1] == LIST_KEEPS:
                return None
        return apdu.originator

    def report_identifier(self):
        return f"{self.tables.domain}/R{len(self.items) + 1:010d}"

    def make_report(self, item):
        """The report on a recipient of an item, as an item more; of a report none is made."""
        to = None if item.apdu.kind == "report" else self.destination(item.apdu)
        if to is not None:
            subject = item.apdu.identifier
            self.added(made_apdu("report", self.report_identifier(), to, [Recipient("1", to)], subject=subject), "own")

    def make_members(self, item, recipient, members, name):
        made = made_apdu("message", item.apdu.identifier, item.apdu.originator,
                         [Recipient(recipient.bits, it) for it in members], item.apdu.history + [name])
        self.added(made, "own").source = item.source or item.number

    # ---- steps on all

    def take_tables(self, text):
        self.tables = Tables(text_of(text))

    def take_format(self, format):
        self.format = format

    def take_snapshot(self, format, texts, items, deliveries, opened, lanes, **_):
        """All is as the snapshot says. Of lanes that were closed, and of sessions, it says nothing."""
        self.format, self.opened = format, opened
        self.tables = Tables(text_of(texts[-1]) if texts else "")
        delivered = {it["item"] for it in deliveries}
        self.items = [self.begun(at, at in delivered, **it) for at, it in enumerate(items, 1)]
        self.lanes = {it["lane"]: self.begun_lane(**it) for it in lanes}
        return {"made": []}

    def begun(self, number, is_delivered, origin, arrival, octets, statuses):
        """An item of a snapshot; None where no step can speak of it any more."""
        if not self.is_kept(number) and are_over(statuses):
            return None
        octets = bytes(octets)
        made = Item(number, p1.apdu_of(octets), arrival, origin)
        made.begin(statuses, is_delivered)
        if number in self.keep_octets:
            made.octets = octets
        return made

    def begun_lane(self, lane, role, peer, size, window, generation, sending, receiving, **_):
        made = Lane(lane, text_of(peer), role == 0, size, window)
        made.begin(generation, sending, receiving)
        return made

    # ---- steps on a recipient

    def settle(self, item, recipient, *status):
        it = self.item(item)
        it.statuses[recipient - 1] = status
        return {"item": it, "recipients": [recipient]}

    def take_accept(self, moment, apdu):
        return {"item": self.taken(apdu, "submitted"), "recipients": []}

    def take_deliver(self, item, recipient, moment):
        meant = self.settle(item, recipient, "delivered", moment)
        who, boxes = self.item(item).apdu.recipients[recipient - 1], self.tables.mailboxes
        meant["mailbox"] = lambda: boxes.get(who.name.normal())
        if who.asks_report():
            self.make_report(self.item(item))
        return meant

    def take_affirm(self, item, recipient, moment):
        meant = self.settle(item, recipient, "affirmed", moment)
        if self.item(item).apdu.recipients[recipient - 1].asks_report():
            self.make_report(self.item(item))
        return meant

    def take_expand(self, item, recipient, moment):
        meant, it = self.settle(item, recipient, "expanded", moment), self.item(item)
        who = it.apdu.recipients[recipient - 1]
        name, policy, members = self.tables.list_of(who.name)
        if name.normal() not in [each.normal() for each in it.apdu.history]:
            if members:
                self.make_members(it, who, members, name)
            if policy == LIST_KEEPS and who.asks_report():
                self.make_report(it)
        return meant

    def take_report(self, item, recipient, moment):
        of_report = self.item(item).apdu.kind == "report"
        meant = self.settle(item, recipient, "discarded" if of_report else "reported", moment)
        self.make_report(self.item(item))
        return meant

    def take_discard(self, item, recipient, moment):
        return self.settle(item, recipient, "discarded", moment)

    def take_back(self, item, recipient, moment):
        meant, it = self.settle(item, recipient, "passed", moment), self.item(item)
        to = self.passed_to(it.apdu)
        self.added(made_apdu("report", it.apdu.identifier, to, [Recipient("1", to)], subject=it.apdu.subject), "own")
        return meant

    def passed_to(self, report):
        """To whom a report to a list is passed back: where a report on the message goes that the list expanded."""
        for it in self.items:
            if it is None or it.origin == "own":
                continue
            if it.apdu.kind == "message" and it.apdu.identifier == report.subject:
                for who, status in zip(it.apdu.recipients, it.statuses):
                    if status and status[0] == "expanded" and who.name.normal() == report.originator.normal():
                        return self.destination(it.apdu) or report.originator
        return report.originator

    # ---- steps on a lane

    def lane(self, number):
        return self.lanes[number]

    def on_lane(self, number, **more):
        lane = self.lane(number)
        return {"lane": lane, **more}

    def of_activity(self, lane):
        return {"lane": lane, "item": self.item(lane.item) if lane.item else None, "recipients": lane.recipients}

    def take_open_lane(self, role, peer, size, window, **_):
        self.opened += 1
        self.lanes[self.opened] = Lane(self.opened, text_of(peer), role == 0, size, window)
        self.sessions.append(self.moment)
        return self.on_lane(self.opened)

    def take_agree(self, lane, size, window, **_):
        it = self.lane(lane)
        it.size, it.window = size, window
        return {"lane": it}

    def take_bind(self, lane, generation):
        self.lane(lane).generation = generation
        self.sessions.append(self.moment)
        return self.on_lane(lane)

    def take_start(self, lane, activity, item, recipients, **_):
        it = self.lane(lane)
        it.phase, it.activity, it.confirmed, it.item, it.recipients = "sending", activity, 0, item, recipients
        return self.of_activity(it)

    def take_confirm(self, lane, checkpoint, **_):
        self.lane(lane).confirmed = checkpoint
        return self.of_activity(self.lane(lane))

    def take_ending(self, lane, **_):
        self.lane(lane).phase = "ending"
        return self.of_activity(self.lane(lane))

    def ended(self, lane, *status):
        """The activity is over. Its recipients have a new status where one is given and it was not given up; each of
        them gets a report where that says so."""
        it = self.lane(lane)
        meant = self.of_activity(it)
        if status and it.phase != "dropping":
            self.set_statuses(it, *status)
        it.phase, it.item, it.recipients = "idle", None, []
        return meant

    def set_statuses(self, lane, *status):
        item = self.item(lane.item)
        is_failed = status[0] == "reported"
        if is_failed and item.apdu.kind == "report":
            status = ("discarded", status[1])
        for each in lane.recipients:
            item.statuses[each - 1] = status
            if is_failed:
                self.make_report(item)

    def take_sent(self, lane, moment, **_):
        return self.ended(lane, "sent", moment, self.lane(lane).peer)

    def take_refused(self, lane, fault, moment, **_):
        return self.ended(lane, "reported", moment, 1, 7 if fault == TOO_LONG else 14)

    def take_denied(self, lane, moment, **_):
        # one that the peer may have whole is not sent again
        return self.ended(lane, *(("reported", moment, 0, None) if self.lane(lane).phase == "ending" else ()))

    def take_dropped(self, lane, **_):
        return self.ended(lane)

    def take_abandon(self, lane, activity, moment):
        it = self.lane(lane)
        meant = self.of_activity(it)
        self.set_statuses(it, "reported", moment, 0, 5)
        it.phase = "dropping"
        return meant

    def kept(self, lane, activity, piece, octets):
        it = self.lane(lane)
        if it.receiving != "partial" or it.received != activity:
            it.pieces = []
        it.pieces[piece - 1:] = [octets]
        it.received = activity
        return it

    def take_secure(self, lane, activity, piece, octets, **_):
        it = self.kept(lane, activity, piece, octets)
        it.receiving = "partial"
        return {"lane": it}

    def take_complete(self, lane, activity, piece, octets, moment, **_):
        it = self.kept(lane, activity, piece, octets)
        made = self.taken(b"".join(it.pieces), "received")
        it.receiving, it.pieces = "done", []
        return {"lane": it, "item": made, "recipients": []}

    def take_drop(self, lane, **_):
        it = self.lane(lane)
        it.receiving, it.pieces = "none", []
        return {"lane": it}

    def take_close_lane(self, lane, **_):
        self.closed.append(self.moment)
        return {"lane": self.lanes.pop(lane)}


def replay(journal, keep_octets=(), keep_all=False):
    """The state that all steps of a journal leave."""
    state = State(keep_octets, keep_all)
    for word, fields in journal.steps():
        state.take(word, fields)
    return state
