#!/usr/bin/env python3
"""Mails and interpersonal messages there and back through the gateway: checks/mail/corpus.py [COUNT].

COUNT (300) mails are made by Python's own `email` and read by it again after the way to X.400 and back; so many
messages of X.420 go to mail and back. Everything is equal but for what the manual says, "What differs".
"""
import email
import email.message
import email.policy
import email.utils
import random
import sys

import common
from common import Wrong, want

import p1
import p22
import texts
import x690 as ber
from mail import bodies, envelope, fetched, heading, names, to_mail, to_x400
from mail.heading import Heading, Recipient
from mail.names import Descriptor, IpmIdentifier

TABLE = common.the_table()
WAY = to_mail.Way(TABLE, TABLE.users[1], 1790000000)
WORDS = "relay probe trace envelope naïve Grüße façade smørrebrød Łódź привет κόσμε שלום 消息 emoji😀 £5 €7 x=y a@b".split(" ")
LETTERS = "abcdefghijklmnopqrstuvwxyz"
MORSE = "morse@silver.example"
X400 = ["/C=US/A=SILVER/S=WATT/@x400.example", '"/C=GB/A=GOLD 400/O=Big Works/S=Faraday/G=Michael/"@x400.example',
        "/C=FR/A= /P=ACME/CN=SALES/DD.ID=77/@x400.example", MORSE, "Alex.I.Bell@acme.example", "joe_x@far.example"]
PEOPLE = ["bell@example.org", "anna.long-name_with.parts@example.org", "someone@else.example", *X400]


class Maker:
    """Makes mails and messages by a seed."""

    def __init__(self, seed):
        self.any = random.Random(seed)

    def some(self, choices, most=4, least=0):
        return [self.any.choice(choices) for _ in range(self.any.randint(least, most))]

    def words(self, most=12):
        return " ".join(self.some(WORDS, most, 1))

    def text(self):
        return "".join(self.words() + "\n" for _ in range(self.any.randint(1, 8)))

    def octets(self, most=3000):
        return self.any.randbytes(self.any.randint(0, most))

    def moment(self):
        return self.any.randint(1000000000, 2000000000)

    def identifier(self):
        long = "".join(self.some(list(LETTERS), 90, 70))
        local = self.any.choice(["abc", "x_y%z", long, f"a.{self.any.random()}"])
        return f"<{local}@{self.any.choice(['example.org', 'host.example'])}>"

    def people(self, most=4, least=0):
        boxes = [(self.any.choice(["", "Alex Bell", "Bell, A.", "Jørgen", "Иван", "O'Hara (sales)", "x" * 70]), it)
                 for it in self.some(PEOPLE, most, least)]
        return ", ".join(formatted(*it) for it in boxes)


def formatted(name, address):
    """An address with a name, as Python writes it."""
    return email.utils.formataddr((name, address)) if name else address


# ---- mails


def text_only(it, made):
    made.set_content(it.text())


def with_page(it, made):
    made.set_content(it.text())
    made.add_alternative(f"<p>{it.words()}</p>\n", subtype="html")
    picture = "".join(it.some(list(LETTERS), 8, 8))
    made.get_payload()[1].add_related(it.octets(), "image", "png", cid=f"<{picture}@example.org>")


def with_files(it, made):
    made.set_content(it.text())
    for _ in range(it.any.randint(1, 3)):
        name = it.any.choice(["plan.txt", "a b.pdf", "Übersicht.bin", "消息.doc", "x.png"])
        kind = it.any.choice([("application", "octet-stream"), ("application", "pdf"), ("image", "png")])
        made.add_attachment(it.octets(), *kind, filename=name)


def with_message(it, made):
    inner = email.message.EmailMessage()
    fill(it, inner)
    it.any.choice([text_only, with_files])(it, inner)
    made.set_content(it.text())
    made.add_attachment(inner)


def one_file(it, made):
    made.set_content(it.octets(), "application", "pdf", filename="only.pdf")


def long_lines(it, made):
    made.set_content("y" * 3000 + "\n" + it.text(), cte="quoted-printable")


def fill(it, made):
    """Fields of a mail."""
    made["From"] = formatted("Alex Bell", "bell@example.org")
    made["To"] = it.people(4, 1)
    if it.any.random() < 0.5:
        made["Cc"] = it.people(3, 1)
    made["Subject"] = it.any.choice([it.words(), it.words(40), "plain", "(1) #2 $3 {x} ~"])
    made["Date"] = email.utils.formatdate(it.moment())
    made["Message-ID"] = it.identifier()
    choices = {"In-Reply-To": it.identifier, "Reply-To": lambda: it.people(2, 1), "X-Own": it.words,
               "References": lambda: " ".join(it.identifier() for _ in range(it.any.randint(1, 6))),
               "Importance": lambda: it.any.choice(["low", "normal", "high", "none at all"]),
               "Sensitivity": lambda: it.any.choice(["Personal", "Private", "Company-Confidential"]),
               "List-Id": lambda: "The list <list.example.org>", "Comments": it.words, "Keywords": lambda: "one, two",
               "Expires": lambda: email.utils.formatdate(it.moment()),
               "Organization": lambda: "Bell & Co.", "X-Mailer": lambda: "none 1.0"}
    for name in it.some(sorted(choices), 6):
        if name not in made:
            made[name] = choices[name]()


def mail(seed):
    it, made = Maker(seed), email.message.EmailMessage()
    fill(it, made)
    it.any.choice([text_only, with_page, with_files, with_message, one_file, long_lines])(it, made)
    received = f"from a by mx{seed}.example.org with ESMTP; {email.utils.formatdate(it.moment())}"
    # shorter lines are folded by Python at places where no fold may be
    return f"Received: {received}\n".encode("ascii") + made.as_bytes(policy=email.policy.SMTP.clone(max_line_length=900))


def addresses_in(value):
    """Display names and addresses. What is at the one gateway is at the other one afterwards. Python's reader leaves a
    space between two encoded words, where none is."""
    return [(it.display_name.replace(" ", ""), it.addr_spec.replace("@x400.example", "@other.example")) for it in value.addresses]


SAME = ("From", "To", "Cc", "Reply-To")
SAME_WORDS = ("Subject", "Message-ID", "In-Reply-To", "References", "X-Own", "Sensitivity", "List-Id", "Comments",
              "Keywords", "Organization", "X-Mailer", "Received")
MOMENTS = ("Date", "Expires")


def compare_fields(before, after):
    for name in SAME:
        want(name, addresses_in(after[name]) if after[name] else None, addresses_in(before[name]) if before[name] else None)
    for name in SAME_WORDS:
        want(name, [" ".join(str(it).split()) for it in after.get_all(name, []) if "(mta-mail)" not in str(it)],
             [" ".join(str(it).split()) for it in before.get_all(name, [])])
    for name in MOMENTS:
        want(name, *([email.utils.parsedate_to_datetime(str(it)).timestamp() for it in each.get_all(name, [])]
                     for each in (after, before)))
    # a normal importance is that of a mail without the field
    said = [str(it).lower() for it in before.get_all("Importance", [])]
    want("Importance", [str(it).lower() for it in after.get_all("Importance", [])], [it for it in said if it != "normal"])


def tree(message, nested=compare_fields):
    """The parts within one another, with what they hold."""
    kind = message.get_content_type()
    if kind.startswith("multipart/"):
        return kind, [tree(it) for it in message.iter_parts()]
    if kind == "message/rfc822":
        return kind, message.get_content()
    if kind == "text/plain" and not message.get_filename():
        return kind, message.get_content().replace("\r\n", "\n").rstrip("\n")
    return kind, message.get_filename(), message["Content-ID"], message.get_payload(decode=True)


def compare_trees(before, after):
    if before[0] == "message/rfc822":
        want("a part", after[0], before[0])
        compare_mails(before[1], after[1])
    elif before[0].startswith("multipart/"):
        want("a multipart", (after[0], len(after[1])), (before[0], len(before[1])))
        for one, other in zip(before[1], after[1]):
            compare_trees(one, other)
    else:
        want("a part", after, before)


def compare_mails(before, after):
    compare_fields(before, after)
    compare_trees(tree(before), tree(after))


def read(octets):
    return email.message_from_bytes(octets, policy=email.policy.default)


def mail_there_and_back(seed):
    before = mail(seed)
    wishes = to_x400.Wishes("bell@example.org", [X400[0]])
    (_, apdu), = to_x400.apdus_of(before, wishes, TABLE)
    # another gateway takes it to mail: it knows its own loops
    other = common.the_table(common.TABLE.replace("gateway x400.example", "gateway other.example\nvia x400.example C=XX")
                             .replace("via x400.example C=XX\n", ""))
    after = to_mail.mail_of(fetched.fetched(apdu), to_mail.Way(other, other.users[1], 1790000000)).octets
    read_by_others(apdu, before)
    compare_mails(read(before), read(after))


def read_by_others(apdu, before):
    """What mta-ipm prints of the message is of the mail."""
    message = p22.message_of(p1.apdu_of(apdu).content)
    subject = dict(message.lines).get("subject", "")
    wanted = str(read(before)["Subject"])
    octets, is_whole = texts.teletex(wanted)
    if is_whole and len(octets) <= heading.LONGEST_SUBJECT:
        want("the subject that others read", subject, wanted)


# ---- interpersonal messages


def name(it):
    return p1.name_from(it.any.choice(["C=US;A=SILVER;S=MORSE", "C=US;A=SILVER;P=X Y;O=WORKS;OU=NORTH;OU=LAB 2;S=B;G=ALEX;"
                                       "I=A;Q=JR;CN=ALEX BELL;X121=123;TID=T;UID=9;DDA:ID=a=b/c", "C=GB;A=GOLD;S=BELL",
                                       "C=GB;A=GOLD;O=ACME;OU=LAB;S=Bell;G=Alex;I=IQ", "C=FR;A= ;CN=SALES",
                                       "C=GB;A=GOLD;P=MAIL;DDA:RFC-822=someone(a)else.example"]))


def descriptor(it):
    free = it.any.choice([None, None, "Alex Bell", "Grüße, A.", "Bell (Lab)"])
    made = Descriptor(name(it), free, it.any.choice([None, "+44 181 333 7777"]))
    return Descriptor(None, "Somebody, of no name") if it.any.random() < 0.1 else made


def recipient(it):
    requests = [word for word in heading.REQUESTS if it.any.random() < 0.2]
    return Recipient(descriptor(it), requests, it.any.random() < 0.2)


def ipm_identifier(it):
    user = it.any.choice([None, name(it)])
    return IpmIdentifier(it.any.choice(["M0001", "a b:c=d/e", "abc(a)example.org", "1.2,3 (x)", "'q'"]), user)


def many(it, make, most=3):
    return [make(it) for _ in range(it.any.randint(0, most))]


def a_heading(it):
    made = Heading(ipm_identifier(it))
    made.originator = Descriptor(name(it), it.any.choice([None, "The originator"]))
    made.to, made.copies, made.reply_to = many(it, recipient), many(it, recipient), many(it, descriptor, 2)
    made.authorizing = many(it, lambda each: Descriptor(name(each)), 2) if it.any.random() < 0.3 else []
    made.replied_to = it.any.choice([None, ipm_identifier(it)])
    made.related, made.obsoleted = many(it, ipm_identifier), many(it, ipm_identifier, 2)
    made.subject = it.any.choice([None, b"Plain", texts.teletex("Grüße aus Łódź: 5 £")[0], b"#1 (x) =?utf-8?q?no?="])
    made.expires, made.reply_by = it.any.choice([None, "301231235959Z"]), it.any.choice([None, "270101000000Z"])
    made.importance, made.sensitivity = it.any.choice([0, 1, 2]), it.any.choice([None, 1, 2, 3])
    made.auto_forwarded = it.any.random() < 0.2
    if it.any.random() < 0.3:
        made.extensions = [(ber.object_identifier(2, 6, 1, 99), ber.integer(it.any.randint(0, 99999)))]
    return made


def a_part(it, depth=0):
    kind = it.any.randint(0, 6 if depth else 7)
    if kind < 2:
        return bodies.Text(texts.ends_as_crlf(it.any.choice(["Hello\n", "", "Grüße\nΣ\n", "Привет\n", "x" * 2000 + "\n"])
                                              .replace("Grüße\nΣ", "Grüße")))
    if kind < 4:
        return bodies.File(it.octets(), it.any.choice([None, "a.txt", "b c.pdf", "x.png"]))
    if kind == 4:
        return bodies.Other(ber.tagged(3, ber.set_of(), ber.sequence(ber.bit_string("1010"))))  # G3 facsimile
    if kind == 5:
        return bodies.Other(ber.element((ber.CONTEXT, 14), it.octets(50)))  # bilaterally defined
    if kind == 6:
        data = p22.external(ber.object_identifier(1, 2, 3, 4), ber.element(ber.OCTET_STRING, it.octets(40)))
        return bodies.Other(ber.tagged(15, data))
    return bodies.Message(a_heading(it), [a_part(it, depth + 1) for _ in range(it.any.randint(1, 2))])


def same_descriptor(it):
    if it is None:
        return None
    return (it.name.normal() if it.name else None), it.free, it.telephone


def same_heading(it):
    """All of a heading but for the lines of RFC 822."""
    return {
        "identifier": it.identifier.same(), "originator": same_descriptor(it.originator),
        "authorizing": [same_descriptor(each) for each in it.authorizing],
        "reply_to": [same_descriptor(each) for each in it.reply_to],
        "recipients": [[(same_descriptor(each.descriptor), sorted(each.requests), each.is_reply_asked) for each in found]
                       for found in (it.to, it.copies)],
        "replied_to": it.replied_to and it.replied_to.same(), "related": [each.same() for each in it.related],
        "obsoleted": [each.same() for each in it.obsoleted], "subject": it.subject,
        "times": (it.expires, it.reply_by), "words": (it.importance, it.sensitivity, it.auto_forwarded),
        "extensions": it.extensions}


def same_part(it):
    if isinstance(it, bodies.Message):
        return "message", same_heading(it.heading), [same_part(each) for each in it.parts]
    if isinstance(it, bodies.Text):
        return "text", it.text
    if isinstance(it, bodies.File):
        return "file", it.name, it.data
    return "other", it.element


def message_there_and_back(seed):
    it = Maker(seed)
    head, parts = a_heading(it), [a_part(it) for _ in range(it.any.randint(1, 4))]
    content = bodies.content_of(head, parts)
    bits = envelope.OF_BOTH
    told = envelope.Envelope(name(it), p1.name_from("C=US;A=SILVER"), f"M{seed}", [(TABLE.users[1].name, bits)])
    apdu = envelope.message_octets(told, content, p22.CONTENT_TYPE)
    made = to_mail.mail_of(fetched.fetched(apdu), WAY)
    if not made.octets.isascii() or max(len(line) for line in made.octets.split(b"\n")) > 998:
        raise Wrong("a line of the mail is no line of mail")
    wishes = to_x400.Wishes("bell@example.org", [X400[0]])
    (_, back), = to_x400.apdus_of(made.octets, wishes, TABLE)
    whole = ber.whole(p1.apdu_of(back).content)
    again, body = whole.children()
    after = same_heading(heading.heading_of(again))
    for key, value in same_heading(head).items():
        want(key, after[key], value)
    want("the parts", [same_part(each) for each in bodies.parts_of(body)], [same_part(each) for each in parts])


def main():
    count, wrong = int(sys.argv[1]) if len(sys.argv) > 1 else 300, 0
    for what, there_and_back in (("mails", mail_there_and_back), ("messages of X.420", message_there_and_back)):
        good = 0
        for seed in range(count):
            try:
                there_and_back(seed)
                good += 1
            except Wrong as why:
                print(f"{what}, seed {seed}: {str(why)[:1500]}")
        print(f"{good} of {count} {what} were equal after the way there and back")
        wrong += count - good
    return 1 if wrong else 0


if __name__ == "__main__":
    sys.exit(main())
