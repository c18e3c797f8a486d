"""Addresses after RFC 2156: O/R names in the local part of an address, addresses in a domain-defined attribute.

An O/R name is written as /C=GB/A=GOLD/S=BELL/, and an address as the value of the attribute RFC-822, in which what no
PrintableString has stands in parentheses: anna(a)example.org.
"""
import re

import p1
import x690 as ber
from mail.refusals import BAD_ADDRESS, NO_SUCH_NAME, Refused
from mail.table import normal

# the keys that are written, and others that are read as the same
WRITTEN = {"C": "C", "A": "A", "P": "P", "O": "O", "S": "S", "G": "G", "I": "I", "Q": "Q", "CN": "CN", "X121": "X121",
           "TID": "T-ID", "UID": "N-ID"}
READ = {**{it: it for it in p1.PARTS}, "ADMD": "A", "PRMD": "P", "GQ": "Q", "X.121": "X121", "T-ID": "TID",
        "N-ID": "UID", "UA-ID": "UID"}
DEFINED, UNREAD = "DD.", "EA."  # domain-defined attributes; extension attributes, as the octets of their values
RFC_822, CONTINUED = "RFC-822", ("RFC822C1", "RFC822C2", "RFC822C3")
LONGEST_VALUE = 128  # characters of the value of a domain-defined attribute
LONGEST_ADDRESS = LONGEST_VALUE * (1 + len(CONTINUED))
ENCODED = {"@": "(a)", "%": "(p)", "!": "(b)", '"': "(q)", "_": "(u)", "(": "(l)", ")": "(r)"}
DECODED = {code[1]: character for character, code in ENCODED.items()}
DOT_ATOM = re.compile(r"[A-Za-z0-9!#$%&'*+/=?^_`{|}~-]+(\.[A-Za-z0-9!#$%&'*+/=?^_`{|}~-]+)*")
MAILBOX = re.compile(r"[\x20-\x7e]+@[A-Za-z0-9]([A-Za-z0-9.-]*[A-Za-z0-9])?")


# ---- PrintableString and ASCII


def printable_of(text):
    """An ASCII text in the characters of a PrintableString."""
    return "".join(ENCODED.get(it) or (it if it in p1.PRINTABLE else f"({ord(it):03d})") for it in text)


def ascii_of(text):
    """The ASCII text that stands in a PrintableString."""
    def character(found):
        code = found[1]
        return DECODED[code] if code in DECODED else chr(int(code)) if int(code) < 128 else found[0]
    return re.sub(r"\(([apbqulr]|\d{3})\)", character, text)


# ---- the text of a name


def quoted_value(value):
    """A value in which what separates values is quoted."""
    return re.sub(r"([/=$])", r"$\1", value)


def pairs_of(name):
    """Keys and values as they are written, the country first."""
    units = 0
    for key, value in name.parts:
        if key == "OU":
            units += 1
            yield f"OU{units}", value
        elif key.startswith("DDA:"):
            yield DEFINED + key[4:], value
        else:
            yield WRITTEN[key], value
    for number, octets in name.unread:
        yield f"{UNREAD}{number}", octets.hex()


def text_of(name):
    """A name as /C=GB/A=GOLD/S=BELL/."""
    return "".join(f"/{key}={quoted_value(value)}" for key, value in pairs_of(name)) + "/"


def split_text(text):
    """The keys and values of a text, without the quoting."""
    for part in re.findall(r"/((?:\$.|[^/$])+)", text):
        found = re.match(r"((?:\$.|[^=$])*)=(.*)", part, re.S)
        if not found:
            raise Refused(BAD_ADDRESS, f"{part!r} in {text!r} is no KEY=value")
        yield tuple(re.sub(r"\$(.)", r"\1", it) for it in found.groups())


def unread_of(key, value):
    try:
        number, octets = int(key[len(UNREAD):]), bytes.fromhex(value)
        if number >= 0:
            ber.whole(octets)
    except (ValueError, ber.Fault) as why:
        raise Refused(BAD_ADDRESS, f"{key}={value[:40]} is no extension attribute") from why
    return number, octets


def part_of(key, value):
    """A part of a name: its key here, its order among units, and the value; None for the key of what is kept unread."""
    upper = key.upper()
    if upper.startswith(UNREAD):
        return None, 0, unread_of(upper, value)
    if upper.startswith(DEFINED) or upper == RFC_822:
        kind = key[len(DEFINED):] if upper.startswith(DEFINED) else key
        if not 1 <= len(kind) <= 8 or not set(kind) <= p1.PRINTABLE:
            raise Refused(BAD_ADDRESS, f"{kind!r} is no type of a domain-defined attribute: 1 to 8 characters")
        return f"DDA:{kind}", 0, value
    unit = re.fullmatch(r"OU([1-4])", upper)
    if unit:
        return "OU", int(unit[1]), value
    if upper not in READ:
        raise Refused(BAD_ADDRESS, f"{key!r} is no attribute of an O/R name")
    return READ[upper], 0, value


def personal_parts(value):
    """The parts of a personal name that is written as first.i.last (the attribute PN)."""
    *given, surname = value.split(".")
    first = given.pop(0) if given and len(given[0]) > 1 else None
    if not surname or not all(len(it) == 1 for it in given):
        return None
    named = [("S", surname)] + ([("G", first)] if first else [])
    return named + ([("I", "".join(given))] if given else [])


def made_name(parts, unread=()):
    """A name of these parts, which are within what X.411 allows."""
    wrong = next((value for key, value in parts if ";" in value), None)
    try:
        if wrong is not None:
            raise p1.BadName(f"a semicolon is outside PrintableString: {wrong!r}")
        it = p1.name_from(";".join(f"{key}={value}" for key, value in parts))
    except p1.BadName as why:
        raise Refused(BAD_ADDRESS, str(why)) from why
    it.unread = tuple(sorted(unread))
    return it


def name_of_text(text, beside=()):
    """The name that a text is, with the parts of another one beside it. Units without a number stand in the order of
    the text where the country comes first, and else in the other one."""
    if not re.fullmatch(r"(/(\$.|[^/$])+)+/?", text, re.S):
        raise Refused(BAD_ADDRESS, f"{text[:200]!r} is no O/R name; one is written as /C=GB/A=GOLD/S=BELL/")
    parts, unread = [], []
    for key, value in split_text(text):
        if key.upper() == "PN":
            personal = personal_parts(value)
            if personal is None:
                raise Refused(BAD_ADDRESS, f"{value!r} is no personal name; one is written as first.i.last")
            parts += [(it, 0, each) for it, each in personal]
            continue
        kind, order, value = part_of(key, value)
        if kind is None:
            unread.append(value)
        else:
            parts.append((kind, order, value))
    return made_name([*beside, *ordered(parts)], unread)


def ordered(parts):
    """Parts as keys and values, the units in their order."""
    units = [(order, value) for key, order, value in parts if key == "OU"]
    if not any(order for order, _ in units) and parts[0][0] != "C":
        units.reverse()
    units.sort(key=lambda it: it[0])
    return [(key, value) for key, _, value in parts if key != "OU"] + [("OU", value) for _, value in units]


# ---- from an address to a name


def unquoted(local):
    """A local part without the quotes."""
    if len(local) > 1 and local.startswith('"') and local.endswith('"'):
        return re.sub(r"\\(.)", r"\1", local[1:-1])
    return local


def prefixed(address, prefix):
    """An address as the value of a domain-defined attribute beside these attributes."""
    value = printable_of(address)
    if len(value) > LONGEST_ADDRESS:
        raise Refused(BAD_ADDRESS, f"an address has at most {LONGEST_ADDRESS} characters in X.400: {address[:60]!r} ..")
    pieces = [value[at:at + LONGEST_VALUE] for at in range(0, len(value), LONGEST_VALUE)]
    pairs = [(f"DDA:{key}", piece) for key, piece in zip((RFC_822, *CONTINUED), pieces)]
    return made_name([*prefix.parts, *pairs], prefix.unread)


def name_of_address(address, table):
    """The O/R name of a mail address, by the table."""
    local, at, domain = address.rpartition("@")
    if not at or not address.isascii() or not MAILBOX.fullmatch(address):
        raise Refused(BAD_ADDRESS, f"{address[:200]!r} is no address of printable ASCII, name@domain")
    known = table.names.get(normal(address))
    if known is not None:
        return known
    domain, local = domain.lower(), unquoted(local)
    if domain == table.gateway:
        return name_at_gateway(local, table)
    if domain in table.domains:
        return name_in_domain(local, table.domains[domain], address)
    return prefixed(address, table.vias.get(domain, table.prefix))


def name_at_gateway(local, table):
    if local.lower() == "postmaster" and table.postmaster is not None:
        return table.names[normal(table.postmaster)]
    if not local.startswith("/"):
        raise Refused(NO_SUCH_NAME, f"{local[:100]!r} is nobody at {table.gateway}; an O/R name is written as "
                      f"/C=GB/A=GOLD/S=BELL/@{table.gateway}")
    return name_of_text(local)


def name_in_domain(local, base, address):
    if local.startswith("/"):
        return name_of_text(local, base.parts)
    personal = personal_parts(local)
    if personal is None:
        raise Refused(BAD_ADDRESS, f"{address!r} is no personal name; one is written as first.i.last")
    return made_name([*base.parts, *personal])


# ---- from a name to an address


def local_part(text):
    """A text as the local part of an address."""
    if DOT_ATOM.fullmatch(text):
        return text
    return '"' + re.sub(r'(["\\])', r"\\\1", text) + '"'


def without(name, base):
    """The parts of a name that are not those of another one; None where it does not have all of these."""
    own, left = name.normal()[0], list(name.parts)
    for part, key in zip(base.parts, base.normal()[0]):
        if key not in own:
            return None
        left = [it for it in left if p1.Name([it]).normal()[0][0] != key] if part[0] != "OU" else left
    if base.all_of("OU"):
        units = [it for it in left if it[0] == "OU"][len(base.all_of("OU")):]
        left = [it for it in left if it[0] != "OU"] + units
    return left


def embedded(name):
    """The address in the domain-defined attributes of a name, or None."""
    value = "".join(name.one(f"DDA:{it}") or "" for it in (RFC_822, *CONTINUED))
    address = ascii_of(value)
    return address if name.one(f"DDA:{RFC_822}") and MAILBOX.fullmatch(address) else None


def personal_local(parts):
    """The local part of a name whose parts are a personal one, or None where that would be read as another."""
    found = dict(parts)
    if set(found) - {"S", "G", "I"} or "S" not in found or len(found) != len(parts):
        return None
    local = ".".join([*([found["G"]] if "G" in found else []), *found.get("I", ""), found["S"]])
    return local if DOT_ATOM.fullmatch(local) and sorted(personal_parts(local) or []) == sorted(parts) else None


def in_domain(name, table):
    """The address of a name by the domain whose attributes it has the most of, or None."""
    found = [(len(base.parts), domain, left) for domain, base in table.domains.items()
             if (left := without(name, base)) is not None and left]
    if not found or name.unread:
        return None
    _, domain, left = max(found)
    address = f"{personal_local(left) or local_part(text_of(p1.Name(left)))}@{domain}"
    try:
        return address if name_of_address(address, table).normal() == name.normal() else None
    except Refused:
        return None


def address_of_name(name, table):
    """The mail address of an O/R name, by the table."""
    known = table.addresses.get(name.normal())
    return known or embedded(name) or in_domain(name, table) or f"{local_part(text_of(name))}@{table.gateway}"
