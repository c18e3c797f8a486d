"""One pass over a history, for whoever watches an agent: what became of all recipients since the beginning, what waits
and for whom, when things were done lately, and how long the spool would be if it were opened now."""
from collections import Counter

import journal
import routes
import state
import stations

LEAST = 1048576  # octets from which on a spool shrinks
OF_REPORT = 200  # octets of a report that was made here, of which a spool has none
OF_ITEM, OF_STATUS, OF_SENT, OF_DELIVERY, OF_LANE, OF_HEAD = 17, 9, 16, 16, 120, 40  # octets of a snapshot's parts
SETTLES = {"deliver", "expand", "report", "affirm", "discard", "back", "sent", "refused", "denied", "abandon"}


class Sizes:
    """The octets of a snapshot of the state, about: where nobody wants a message its content goes."""

    def __init__(self):
        self.whole, self.spent, self.delivered = {}, {}, set()
        self.texts = self.others = 0

    def item(self, number, octets, apdu):
        """An item with so many octets."""
        content = 0
        if apdu is not None and apdu.kind == "message" and apdu.of_content is not None:
            content = len(apdu.of_content.whole) - 2
        self.whole[number], self.spent[number] = octets, octets - content

    def made(self, item):
        if item.apdu.kind == "report" or not item.source:
            self.whole[item.number] = self.spent[item.number] = OF_REPORT
        else:
            self.whole[item.number], self.spent[item.number] = self.whole[item.source], self.spent[item.source]

    def in_all(self, pending, lanes):
        """The octets where these items are pending and these lanes open."""
        wanted = self.delivered | pending
        items = sum(it if number in wanted else self.spent[number] for number, it in self.whole.items())
        on_way = sum(self.whole.get(it.item, 0) for it in lanes if it.phase in ("sending", "ending"))
        pieces = sum(len(piece) for it in lanes for piece in it.pieces)
        return (OF_HEAD + self.texts + self.others + items + on_way + pieces + OF_ITEM * len(self.whole)
                + OF_LANE * len(lanes))


class Survey:
    """What a history says. `came` has the moments since `first`, as seconds since 1970, at which something was done,
    each with its word."""

    def __init__(self, first=0):
        self.now, self.calls, self.sizes = state.State(), stations.Calls(), Sizes()
        self.counts, self.came, self.first = Counter(), [], first

    def go_through(self, its):
        """Takes all steps of a journal."""
        for word, fields in its.steps():
            self.take(word, fields)
        return self

    def take(self, word, fields):
        lane = self.now.lanes.get(fields.get("lane"))
        is_settled = lane is not None and lane.phase == "dropping"  # its recipients have their status already
        pieces = [] if lane is None or word != "complete" else lane.pieces[:fields["piece"] - 1]
        meant = self.now.take(word, fields)
        self.calls.see(word, fields, meant.get("lane"))
        getattr(self, f"saw_{word.replace('-', '_')}", self.saw)(fields, meant, pieces)
        if word in SETTLES and not is_settled:
            self.settled(meant["item"], meant["recipients"])

    def saw(self, fields, meant, pieces):
        """Any other step."""
        for it in meant["made"]:
            self.sizes.made(it)

    def saw_tables(self, fields, meant, pieces):
        self.sizes.texts += 4 + len(fields["text"])

    def saw_accept(self, fields, meant, pieces):
        self.taken(meant["item"], len(fields["apdu"]))

    def saw_complete(self, fields, meant, pieces):
        self.taken(meant["item"], sum(map(len, pieces)) + len(fields["octets"]))

    def saw_open_lane(self, fields, meant, pieces):
        self.done("session", self.now.moment)

    def saw_bind(self, fields, meant, pieces):
        self.done("session", self.now.moment)

    def taken(self, item, octets):
        self.sizes.item(item.number, octets, item.apdu)
        self.done("taken", item.arrival)

    def settled(self, item, recipients):
        for at in recipients:
            word, *others = item.statuses[at - 1]
            self.noted(item.number, word, others)

    def noted(self, number, word, others):
        """What became of a recipient of an item, with its moment and the peer to whom it was sent."""
        if word == "pending":
            return
        self.done(word, others[0])
        self.sizes.others += OF_STATUS + (OF_SENT if word == "sent" else 0)
        if word == "delivered":
            self.sizes.others += OF_DELIVERY
            self.sizes.delivered.add(number)

    def done(self, word, moment):
        self.counts[word] += 1
        if journal.unix_of(moment) >= self.first:
            self.came.append((journal.unix_of(moment), word))

    def saw_snapshot(self, fields, meant, pieces):
        """All that was before it, but for sessions."""
        self.sizes.texts += sum(4 + len(it) for it in fields["texts"])
        for number, it in enumerate(fields["items"], 1):
            kept = self.now.items[number - 1]
            self.sizes.item(number, len(it["octets"]), kept and kept.apdu)
            if it["origin"] != "own":
                self.done("taken", it["arrival"])
            for word, *others in it["statuses"]:
                self.noted(number, word, others)
        self.sizes.delivered |= {it["item"] for it in fields["deliveries"]}

    # ---- what is left

    def snapshot_octets(self):
        """The octets of the spool, about, after an opening that makes it shrink."""
        pending = {item.number for item, _ in self.now.pending()}
        return self.sizes.in_all(pending, list(self.now.lanes.values()))

    def least_octets(self):
        """The octets below which no later opening leaves it: what waits now may be sent, and the rest stays."""
        return self.sizes.in_all(set(), [])

    def shrinks_to(self, octets):
        """The octets that an opening would leave of so many; None where it would leave all."""
        after = self.snapshot_octets()
        return after if octets >= LEAST and 2 * after <= octets else None

    def pending(self):
        """What waits: an item, the recipient's name, and the peer to which it goes, None where it goes to none."""
        ways, known = routes.Routes(self.now.tables.text), {}
        on_way = {(it.item, at): it.peer for it in self.now.lanes.values() if it.item for at in it.recipients}
        for item, at in self.now.pending():
            name = item.apdu.recipients[at - 1].name
            peer = on_way.get((item.number, at))
            if peer is None:
                if name.normal() not in known:
                    known[name.normal()] = ways.peer_of(name)
                peer = known[name.normal()]
            yield item, name, peer
