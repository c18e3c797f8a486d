"""The table of equivalents: what the gateway is called on either side, and which address is which O/R name.

A text of lines; one that is empty or begins with # is passed over. Words are separated by one space, and a NAME, in the
text form of mta.tables(5), is the rest of its line.

    gateway DOMAIN                  the mail domain whose local parts are O/R names. Once
    prefix NAME                     the attributes of mail users without a name of their own: an address is the value of
                                    a domain-defined attribute RFC-822 beside them. Once
    postmaster ADDRESS              who sends for a mail without a sender. At most once; it is a user
    hops N                          places that a message may have come through, 1 to 500; 50 by default
    user MAILBOX ADDRESS [NAME]     a mail user, who gets what comes into the agent's mailbox of that word
    equivalent ADDRESS NAME         another address and its name, as of someone whose mail is X.400's
    domain DOMAIN NAME              first.last@DOMAIN is the personal name beside these attributes
    via DOMAIN NAME                 the addresses of a domain behind another gateway, which has these attributes
"""
import re

import p1

MOST_HOPS, HOPS = 500, 50
WORD = re.compile(r"[A-Za-z0-9-]{1,32}")
DOMAIN = re.compile(r"[A-Za-z0-9]([A-Za-z0-9.-]{0,253}[A-Za-z0-9])?")
ADDRESS = re.compile(r"[^\s@]+@[A-Za-z0-9.-]+")


class BadTable(Exception):
    """A line that is none, by its number."""


class User:
    """Who gets what comes into a mailbox."""

    def __init__(self, mailbox, address, name):
        self.mailbox, self.address, self.name = mailbox, address, name


def normal(address):
    """Equal for two addresses that are the same: letters of either case."""
    return address.strip().lower()


class Table:
    """What the lines say; `names` and `addresses` are the equivalents in either direction."""

    def __init__(self):
        self.gateway = self.prefix = self.postmaster = None
        self.hops = HOPS
        self.users, self.domains, self.vias = [], {}, {}
        self.names, self.addresses = {}, {}
        self.of_address = {}

    def add_pair(self, address, name):
        if normal(address) in self.names:
            raise BadTable(f"{address} stands twice")
        if name.normal() in self.addresses:
            raise BadTable(f"{name.text()} stands twice")
        self.names[normal(address)], self.addresses[name.normal()] = name, address

    def user_at(self, address):
        """The user of an address, or None."""
        return self.of_address.get(normal(address))

    def is_user(self, address):
        return normal(address) in self.of_address


# ---- reading


def once(table, field, value):
    if getattr(table, field) is not None:
        raise BadTable(f"{field} stands twice")
    setattr(table, field, value)


def domain_word(text):
    if not DOMAIN.fullmatch(text):
        raise BadTable(f"{text!r} is no mail domain")
    return text.lower()


def address_word(text):
    if not ADDRESS.fullmatch(text) or not text.isascii():
        raise BadTable(f"{text!r} is no mail address")
    return text


def name_words(text):
    try:
        return p1.name_from(text)
    except p1.BadName as why:
        raise BadTable(str(why)) from why


def words_of(rest, most, what):
    found = rest.split(" ", most - 1)
    if len(found) < most or not all(found):
        raise BadTable(f"the line is `{what}`")
    return found


def add_user(table, rest):
    mailbox, address, *named = rest.split(" ", 2)
    if not WORD.fullmatch(mailbox) or mailbox.startswith("-"):
        raise BadTable(f"{mailbox!r} is no word of a mailbox")
    if any(it.mailbox == mailbox for it in table.users):
        raise BadTable(f"the mailbox {mailbox} stands twice")
    table.users.append(User(mailbox, address_word(address), name_words(named[0]) if named else None))


def add_line(table, line):
    """Takes a line in."""
    word, _, rest = line.partition(" ")
    if word == "gateway":
        once(table, "gateway", domain_word(rest))
    elif word == "prefix":
        once(table, "prefix", name_words(rest))
    elif word == "postmaster":
        once(table, "postmaster", address_word(rest))
    elif word == "hops":
        if not re.fullmatch(r"[1-9][0-9]{0,2}", rest) or int(rest) > MOST_HOPS:
            raise BadTable(f"hops are 1 to {MOST_HOPS}, and not {rest!r}")
        table.hops = int(rest)
    elif word == "user":
        words_of(rest, 2, "user MAILBOX ADDRESS [NAME]")
        add_user(table, rest)
    elif word == "equivalent":
        address, name = words_of(rest, 2, "equivalent ADDRESS NAME")
        table.add_pair(address_word(address), name_words(name))
    elif word in ("domain", "via"):
        domain, name = words_of(rest, 2, f"{word} DOMAIN NAME")
        (table.domains if word == "domain" else table.vias)[domain_word(domain)] = name_words(name)
    else:
        raise BadTable(f"no line begins with {word!r}")


def complete(table, made):
    """Says what is missing, and gives each user a name: `made` makes that of an address."""
    for field in ("gateway", "prefix"):
        if getattr(table, field) is None:
            raise BadTable(f"no line `{field}`")
    for user in table.users:
        user.name = user.name or made(user.address, table)
        table.add_pair(user.address, user.name)
        table.of_address[normal(user.address)] = user
    if table.postmaster is not None and not table.is_user(table.postmaster):
        raise BadTable(f"the postmaster {table.postmaster} is no user")
    return table


def table_of(text, made):
    """The table that a text is."""
    table = Table()
    for at, line in enumerate(text.split("\n"), 1):
        if line and not line.startswith("#"):
            try:
                add_line(table, line)
            except BadTable as why:
                raise BadTable(f"line {at}: {why}") from why
    return complete(table, made)
