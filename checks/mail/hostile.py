#!/usr/bin/env python3
"""Hostile mails and contents: each ends with a message or a refusal in words, and memory stays in proportion:
checks/mail/hostile.py [COUNT]. COUNT (1500) are changed at random."""
import random
import resource
import sys

import corpus
from common import Wrong

import p1
import p22
import x690 as ber
from mail import envelope, fetched, to_mail, to_x400
from mail.refusals import Refused

TABLE, WAY = corpus.TABLE, corpus.WAY
DEEP = 3000
HEAD = b"From: bell@example.org\r\nTo: a@b.c\r\n"
# each a mail that some program stumbled over
BY_HAND = (
    b"", b"\n", b"\0" * 1000, b"\xff" * 1000, b"no header at all\n\nbody", HEAD, HEAD + b"Subject: =?utf-8?b?####?=\r\n\r\nx",
    HEAD + b"Subject: =?no-such?q?=E9?= =?utf-8?q?=FF?=\r\n\r\nx", HEAD + b"Date: 99 Foo 99999\r\nExpires: -1\r\n\r\nx",
    HEAD + b"Date: Mon, 31 Feb 2024 25:61:61 +9999\r\n\r\nx", HEAD + b"Message-ID: <" + b"x" * 100000 + b">\r\n\r\nx",
    HEAD + b"References: " + b"<a@b> " * 20000 + b"\r\n\r\nx", HEAD + b"X: " + b"(" * 100000 + b"\r\n\r\nx",
    b"From: " + b"(" * 100000 + b"\r\nTo: " + b'"' * 99999 + b"\r\n\r\nx", b"From: " + b"<" * 100000 + b"\r\n\r\nx",
    b"From: bell@example.org\r\nTo: " + b"a:" * 50000 + b"\r\n\r\nx", HEAD + b"Subject: " + "é€\ud7ff".encode() * 9999 + b"\n\nx",
    HEAD + b"Content-Type: text/plain; charset=\"no such\"\r\n\r\n\xe9\xff", HEAD + b"Content-Type: ;;;=\r\n\r\nx",
    HEAD + b"Content-Type: text/plain; charset=utf-7\r\n\r\n+AGE-\xff", HEAD + b"Content-Transfer-Encoding: base64\r\n\r\n=*=",
    HEAD + b"Content-Type: text/plain; charset=idna\r\n\r\n..", HEAD + b"Content-Type: multipart/mixed\r\n\r\nno boundary",
    HEAD + b"Content-Type: multipart/mixed; boundary=\"\"\r\n\r\n----\r\n", HEAD + b"Content-Type: message/rfc822\r\n\r\n",
    HEAD + b"Content-Type: application/x; name*0*=utf-8''%ff; name*9=x; name*=\"\r\n\r\nx",
    HEAD + b"Content-Type: application/x; name*1=b\r\nContent-Disposition: attachment; filename*=x'y'%zz\r\n\r\nx",
    HEAD + b"Content-Type: application/x400-bp\r\n\r\n\xa0\x80\x30\x80", HEAD + b"X400-Structure: mixed(((\r\n\r\nx",
    HEAD + b"Content-Type: message/rfc822\r\n\r\n" * DEEP, HEAD + b"Received: x by y; no date\r\n" * 49 + b"\r\nx",
    HEAD + b"".join(b"Content-Type: multipart/mixed; boundary=b%d\r\n\r\n--b%d\r\n" % (it, it) for it in range(DEEP)),
    HEAD + b"Content-Type: multipart/mixed; boundary=b\r\n\r\n" + b"--b\r\n\r\nx\r\n" * 5000 + b"--b--\r\n",
    HEAD + b"Content-Type: multipart/report; report-type=delivery-status; boundary=b\r\n\r\n--b\r\nContent-Type: message/"
    b"delivery-status\r\n\r\nAction: failed\r\n\r\n--b--\r\n",
)


def mail_ends(octets):
    """A mail becomes messages that are APDUs, or is refused in words."""
    try:
        made = to_x400.apdus_of(octets, to_x400.Wishes("bell@example.org", [corpus.X400[0]]), TABLE)
    except Refused as why:
        if not why.words or not why.code:
            raise Wrong("a refusal without words") from why
        return
    for _, apdu in made:
        to_mail.mail_of(fetched.fetched(apdu), corpus.to_mail.Way(OTHER, OTHER.users[1], 0))


OTHER = corpus.common.the_table(corpus.common.TABLE.replace("gateway x400.example", "gateway other.example"))


def content_ends(content):
    """A message with whatever content becomes a mail of ASCII lines, or is refused."""
    told = envelope.Envelope(p1.name_from("C=US;A=SILVER"), p1.name_from("C=US;A=SILVER"), "M1", [(TABLE.users[1].name, "1")])
    octets = to_mail.mail_of(fetched.fetched(envelope.message_octets(told, content, p22.CONTENT_TYPE)), WAY).octets
    if not octets.isascii() or b"\0" in octets:
        raise Wrong("a mail that is not ASCII")


def changed(octets, any_of):
    made = bytearray(octets)
    for _ in range(any_of.randint(1, 8)):
        at = any_of.randrange(len(made))
        kind = any_of.randrange(4)
        if kind == 0:
            made[at] = any_of.randrange(256)
        elif kind == 1:
            del made[at:at + any_of.randint(1, 30)]
        elif kind == 2:
            made[at:at] = any_of.randbytes(any_of.randint(1, 8))
        else:
            made[at:at] = made[at:at + any_of.randint(1, 60)]
        made = made or bytearray(b"x")
    return bytes(made)


def nested_content():
    inner = ber.tagged(0, ber.set_of(), ber.element(ber.IA5_STRING, b"x"))
    for _ in range(400):
        inner = ber.tagged(9, ber.set_of(), ber.sequence(ber.set_of(ber.element((1, 11), ber.printable("a"), True)),
                                                         ber.sequence(inner)))
    return ber.tagged(0, ber.set_of(ber.element((1, 11), ber.printable("a"), True)), ber.sequence(inner))


def tried(what, call, octets):
    try:
        call(octets)
        return 0
    except Exception as why:  # whatever it is, it is one too many
        print(f"{what}: {type(why).__name__}: {str(why)[:300]}")
        return 1


def main():
    count, any_of, wrong = int((sys.argv[1:] or ["1500"])[0]), random.Random(7), 0
    for at, octets in enumerate(BY_HAND):
        wrong += tried(f"mail {at} by hand", mail_ends, octets)
    wrong += tried("a content within a content", content_ends, nested_content())
    for seed in range(count):
        octets = corpus.mail(seed % 40)
        wrong += tried(f"changed mail {seed}", mail_ends, changed(octets, any_of))
        it = corpus.Maker(seed % 40)
        content = corpus.bodies.content_of(corpus.a_heading(it), [corpus.a_part(it)])
        wrong += tried(f"changed content {seed}", content_ends, changed(content, any_of))
    before = resource.getrusage(resource.RUSAGE_SELF).ru_maxrss
    wrong += tried("30 MB", mail_ends, HEAD + b"\r\n" + b"x" * 70 + b"\r\n" * 15000000)
    grown = (resource.getrusage(resource.RUSAGE_SELF).ru_maxrss - before) / 1024
    print(f"{len(BY_HAND)} mails by hand, {count} changed mails and {count} changed contents, a mail of 30 MB: {wrong} wrong; "
          f"{grown:.0f} MiB more for the last one")
    return 1 if wrong or grown > 1500 else 0


if __name__ == "__main__":
    sys.exit(main())
