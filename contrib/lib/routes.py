"""Where the names of a text of tables go, as the manual's "Tables" has it."""
import p1

PATTERN = ("C", "A", "P", "O", "OU")


def normal(value):
    return " ".join(value.upper().split())


def pattern_of(text):
    """The values of a pattern, in the order of its parts."""
    return [normal(part.partition("=")[2]) for part in text.split(";")]


def attributes_of(name):
    """The attributes of a name that patterns speak of, in their order; None where one is absent."""
    single = [name.one(key) for key in PATTERN[:-1]]
    return [None if it is None else normal(it) for it in single + name.all_of(PATTERN[-1])]


class Routes:
    """The mailboxes, lists and routes of a text of tables."""

    def __init__(self, text):
        self.own, self.routes = set(), []
        for line in text.split("\n"):
            word, _, rest = line.partition(" ")
            if word == "mailbox":
                self.own.add(p1.name_from(rest.split(" ", 1)[1]).normal())
            elif word == "list":
                self.own.add(p1.name_from(rest.split(" ", 2)[2]).normal())
            elif word == "route":
                self.routes.append(self.route(rest))
        self.routes.sort(key=lambda it: -len(it[0]))  # the one with the most parts counts

    @staticmethod
    def route(rest):
        """A pattern, and the peer to which it leads, None for `here`."""
        if rest.endswith(" here"):
            return pattern_of(rest[:-len(" here")]), None
        pattern, _, peer = rest.rpartition(" peer ")
        return pattern_of(pattern), peer

    def peer_of(self, name):
        """The peer to which a name goes; None where it goes to none."""
        if name.normal() in self.own:
            return None
        parts = attributes_of(name)
        return next((peer for pattern, peer in self.routes if parts[:len(pattern)] == pattern), None)
