"""Where a message has been, on either side: Received fields and traces, and the marks by which a loop is found."""
import re

import p1
from mail import addresses, fields
from mail.envelope import ACTIONS, LONGEST_MTA, RELAYED, Place
from mail.identifiers import digest_of
from mail.refusals import LOOP, Refused

RECEIVED, X400_RECEIVED = "received", "x400-received"
BY = re.compile(r"\bby\s+([A-Za-z0-9.-]+)")
X400_PLACE = re.compile(r"by (?:mta (\S+) in )?(/.*?/);\s*(\w+);\s*(.*)")
TOO_MANY = "the message came through {} places, and {} are allowed: it goes round"
SAME_GATEWAY = "the message came from mail by this gateway, {}, and does not go back by it"


def mta_name(host):
    """A host's name within the bounds of an agent's name."""
    return host if len(host) <= LONGEST_MTA else f"{host[:15]}-{digest_of(host.lower(), 16)}"


def of_domain(name):
    """The domain of a name."""
    return p1.Name([(key, value) for key, value in name.parts if key in ("C", "A", "P")])


def place_of_field(name, value, table, moment):
    """The place that a trace field tells of."""
    if name == X400_RECEIVED:
        found = X400_PLACE.match(value)
        try:
            domain = of_domain(addresses.name_of_text(found[2])) if found else None
        except Refused:
            domain = None
        if domain is not None and domain.one("C") and domain.one("A") is not None:
            # a domain alone, of a trace, is told from an agent in one by the name
            return Place(domain, fields.utc_time(found[4]) or moment, mta_name(found[1] or "domain"))
    found = BY.search(value)
    when = fields.utc_time(value.rpartition(";")[2])
    return Place(of_domain(table.prefix), when or moment, mta_name(found[1]) if found else "unknown")


def places_of(found, table, moment):
    """The places of a mail's fields, in the order of time, and this gateway as the last one. More than the table
    allows are refused."""
    made = [place_of_field(name.lower(), value, table, moment) for name, value in found
            if name.lower() in (RECEIVED, X400_RECEIVED)]
    check_hops(len(made), table)
    return made[::-1] + [Place(of_domain(table.prefix), moment, mta_name(table.gateway))]


def check_hops(count, table):
    if count > table.hops:
        raise Refused(LOOP, TOO_MANY.format(count, table.hops))


def check_way(domains, agents, table):
    """Refuses a message that this gateway took from mail, or that came through too many places."""
    own = (mta_name(table.gateway).lower(), of_domain(table.prefix).normal())
    if any(((it.mta or "").lower(), it.domain.normal()) == own for it in agents):
        raise Refused(LOOP, SAME_GATEWAY.format(table.gateway))
    check_hops(len(domains) + len(agents), table)


def moment_text(utc):
    return fields.date_text(fields.utc_seconds(utc))


def x400_received(place):
    """A place as a field."""
    agent = f"mta {place.mta} in " if place.mta else ""
    action = ACTIONS.get(place.action, ACTIONS[RELAYED])
    return f"by {agent}{addresses.text_of(place.domain)}; {action}; {moment_text(place.moment)}"
