#!/usr/bin/env python3
"""Addresses after RFC 2156, both ways, and what is no address: checks/mail/addresses.py."""
import sys

import common
from common import Wrong, want

from mail import addresses, fields
from mail.refusals import Refused
from mail.table import BadTable

TABLE = common.the_table()
# an address, its O/R name, and the address of that where it is another one
PAIRS = (
    ("bell@example.org", "C=GB;A=GOLD;S=BELL", None),
    ("Bell@Example.ORG", "C=GB;A=GOLD;S=BELL", "bell@example.org"),
    ("morse@silver.example", "C=US;A=SILVER;S=MORSE", None),
    ("/C=GB/A=GOLD/S=WATT/@x400.example", "C=GB;A=GOLD;S=WATT", None),
    ("/S=WATT/ADMD=GOLD/C=GB/@x400.example", "C=GB;A=GOLD;S=WATT", "/C=GB/A=GOLD/S=WATT/@x400.example"),
    ('"/C=GB/A=GOLD 400/S=Watt/"@x400.example', "C=GB;A=GOLD 400;S=Watt", None),
    ("/C=GB/A=X/O=a$/b/@x400.example", "C=GB;A=X;O=a/b", None),
    ("/C=GB/A=X/OU2=low/OU1=high/@x400.example", "C=GB;A=X;OU=high;OU=low", "/C=GB/A=X/OU1=high/OU2=low/@x400.example"),
    ("/C=GB/A=X/PN=Tom.J.Rose/@x400.example", "C=GB;A=X;S=Rose;G=Tom;I=J", "/C=GB/A=X/S=Rose/G=Tom/I=J/@x400.example"),
    ("joe_x@b.c", "C=GB;A=GOLD;P=MAIL;DDA:RFC-822=joe(u)x(a)b.c", None),
    ("a%b!c@d.e", "C=GB;A=GOLD;P=MAIL;DDA:RFC-822=a(p)b(b)c(a)d.e", None),
    ("a+b~c@d.e", "C=GB;A=GOLD;P=MAIL;DDA:RFC-822=a+b(126)c(a)d.e", None),
    ("x@far.example", "C=US;A=SILVER;P=MAIL;DDA:RFC-822=x(a)far.example", None),
    ("Alex.I.Bell@acme.example", "C=GB;A=GOLD;O=ACME;OU=LAB;S=Bell;G=Alex;I=I", None),
    ("A.Bell@acme.example", "C=GB;A=GOLD;O=ACME;OU=LAB;S=Bell;I=A", None),
)
NONE = ("x", "@b.c", "a b@c.d\n", "é@b.c", "/C=GB/ZZ=1/@x400.example", "bob@x400.example", "/C=GBR/@x400.example",
        "/C=GB/S/@x400.example", "//@x400.example", f"/C=GB/A=G/S={'x' * 41}/@x400.example", "a" * 600 + "@b.c",
        "/C=GB/A=G/O=\u20ac/@x400.example", "/C=GB/DD.LONGERTHAN8=1/@x400.example", "/EA.7=zz/@x400.example",
        "/C=GB/A=a;b/@x400.example", f"{'/OU=a' * 5}/@x400.example")
BOXES = (
    ('"Bell, A." <a@b.c> (Tel 1)', [("a@b.c", "Bell, A.", ["Tel 1"])]),
    ("undisclosed-recipients:;, a@b.c", [(None, "undisclosed-recipients", []), ("a@b.c", "", [])]),
    ("List: m@n.o, p@q.r;", [("m@n.o", "", []), ("p@q.r", "", [])]),
    ("<@a,@b:joe@where>", [("joe@where", "", [])]),
    ("=?utf-8?b?SsO4cmdlbg==?= <j@k.l>", [("j@k.l", "Jørgen", [])]),
    ("", []), (",,;", []), ("(((", []),
)
BAD_TABLES = ("gateway x.y\n", "prefix C=GB;A=X\n", f"{common.TABLE}gateway z.example\n", f"{common.TABLE}user a-b\n",
              f"{common.TABLE}user bell x@y.z\n", f"{common.TABLE}user x bell@example.org\n", f"{common.TABLE}hops 0\n",
              f"{common.TABLE}nothing 1\n", f"{common.TABLE}user new new@b.c C=GBR\n")


def refused(address):
    try:
        return addresses.name_of_address(address, TABLE).text()
    except Refused as why:
        return why.code[:4]


def main():
    try:
        for address, name, back in PAIRS:
            found = addresses.name_of_address(address, TABLE)
            want(address, found.normal(), addresses.p1.name_from(name).normal())
            want(name, addresses.address_of_name(found, TABLE), back or address)
        for address in NONE:
            want(address, refused(address), "5.1.")
        for text, wanted in BOXES:
            want(text, [(it.address, it.display, it.comments) for it in fields.mailboxes(text)], wanted)
        for text in BAD_TABLES:
            try:
                common.the_table(text)
            except BadTable:
                continue
            raise Wrong(f"this table is taken: {text}")
        print(f"{len(PAIRS)} addresses are their names and back, {len(NONE)} are refused")
    except Wrong as why:
        print(why)
        return 1
    return 0


if __name__ == "__main__":
    sys.exit(main())
