#!/usr/bin/env python3
"""Spools as programs wrote them before a spool had a format: older_spools.py make, or older_spools.py MTA FOLDER.

`make` writes samples/spools from the steps below, record by record as mta.spool(5) lays them out. The other way opens a
copy of each by the program MTA in FOLDER: `mta spool` has to print what stands beside the spool, twice, and sets the
format once. Then each copy is served on: a message more is delivered, or the two ends of a lane meet over loopback. At
last an older spool is opened that is full: its format fits to the octet, or it does not.
"""
import os
import shutil
import struct
import subprocess
import sys

sys.path.insert(0, os.path.join(os.path.dirname(os.path.abspath(__file__)), "speed"))
import tools  # noqa: E402

TOP = os.path.dirname(os.path.dirname(os.path.abspath(__file__)))
SAMPLES = f"{TOP}/samples"
SPOOLS = f"{SAMPLES}/spools"
FORMAT = bytes.fromhex("01 00000005 19 00000002")  # the record that sets the format

# An agent's moment is never before the last that it recorded: as that is in 2049, all of these are the same on any day.
MOMENT, TIME = 3_124_224_000, "490101000000Z"
DAY = 86_400
NEXT_TIME = "490102000000Z"
LATER = b"490101001640Z"  # 1,000 seconds later
PIECE = 1024  # a checkpoint size of 1
MOST = 536_870_912  # octets of a spool
LONGEST = 2_097_152  # octets of an APDU


def n(value):
    return struct.pack(">I", value)


def long(value):
    return struct.pack(">Q", value)


def s(octets):
    return n(len(octets)) + octets


# ---- steps, as bodies of records

def tables(text):
    return b"\x01" + s(text)


def accept(octets):
    return b"\x02" + long(MOMENT) + s(octets)


def settle(kind, item, recipient=1, moment=MOMENT):
    return bytes([kind]) + n(item) + n(recipient) + long(moment)


def deliver(item, moment=MOMENT):
    return settle(3, item, moment=moment)


def expand(item):
    return settle(4, item)


def report(item, recipient=1):
    return settle(5, item, recipient)


def affirm(item):
    return settle(6, item)


def open_lane(role, peer):
    """The first lane, which gold opened with this name: of either end."""
    name = s(b"gold") + long(MOMENT) + b"\x01" + s(b"0000000001")
    return b"\x09" + bytes([role]) + s(peer) + name + b"\x00" + n(1) + n(3) + long(MOMENT)


def on_lane(kind):
    return bytes([kind]) + n(1) + long(1)


AGREE = on_lane(10) + n(1) + n(3)
START = on_lane(12) + n(1) + n(1) + n(1) + n(1) + long(MOMENT)
CONFIRM = on_lane(13) + n(1) + n(1)
ENDING = on_lane(14) + n(1)
SENT = on_lane(15) + n(1) + long(MOMENT)
ABANDON = b"\x13" + n(1) + n(1) + long(MOMENT + DAY)


def secure(piece):
    return on_lane(20) + n(1) + n(1) + s(piece)


def complete(piece):
    return on_lane(21) + n(1) + n(2) + s(piece) + long(MOMENT)


# ---- messages to Morse at silver, and the copy that gold transfers

def element(tag, *parts):
    return tools.element(tag, b"".join(parts))


GB = element(0x61, element(0x13, b"GB"))
GOLD = GB + element(0x62, element(0x13, b"GOLD"))
SILVER = GB + element(0x62, element(0x13, b"SILVER"))


def name(domain, surname):
    return element(0x60, element(0x30, domain, element(0xA5, element(0x80, surname))))


TRACE = element(0x30, element(0x63, GOLD), element(0x31, element(0x80, TIME.encode()), element(0x82, b"\x00")))


def message(local, to, content, trace=b"", deferral=b""):
    recipient = element(0x31, to, element(0x80, b"\x01"), element(0x81, b"\x00\xa8"))
    return element(0xA0, element(
        0x31, name(GOLD, b"BELL"), element(0x64, element(0x63, GOLD), element(0x16, local)), element(0x46, b"\x16"),
        element(0x69, trace), element(0x80, deferral) if deferral else b"", element(0xA2, recipient),
    ), element(0x04, content))


MORSE = name(SILVER, b"MORSE")
CONTENT = b"what has two pieces where one has a kibioctet. " * 32
TO_MORSE = message(b"M0007", MORSE, CONTENT)
COPY = message(b"M0007", MORSE, CONTENT, TRACE)
TO_COME = message(b"M0008", MORSE, b"one more")
DEFERRED = message(b"M0009", name(GOLD, b"WATT"), b"later", deferral=LATER)

# ---- the spools


def sample(file):
    with open(f"{SAMPLES}/{file}", "rb") as octets:
        return octets.read()


def own(file):
    with open(f"{SPOOLS}/{file}", "rb") as octets:
        return octets.read()


TO_SILVER = "item 1 message C=GB;A=GOLD/M0007 arrived {T}\nrecipient 1 {status} C=GB;A=SILVER;S=MORSE\n"
AT_SILVER = "item 1 message C=GB;A=GOLD/M0007 arrived {T}\nrecipient 1 delivered {T} C=GB;A=SILVER;S=MORSE\n"
OUT = "lane 1 out silver generation 1 size 1 window 3 send {half} receive none\n"
IN = "lane 1 in gold generation 1 size 1 window 3 send idle 0 receive {half}\n"
DELIVERED = "item 1 message C=GB;A=GOLD/M0001 arrived {T}\nrecipient 1 delivered {T} C=GB;A=GOLD;S=WATT\n"
LISTED = """item 1 message C=GB;A=GOLD/M0003 arrived {T}
recipient 1 expanded {T} C=GB;A=GOLD;CN=STAFF
item 2 message C=GB;A=GOLD/M0003 arrived {T}
recipient 1 delivered {T} C=GB;A=GOLD;S=WATT
recipient 2 reported {T} 1 0 C=GB;A=GOLD;S=FARADAY
item 3 report C=GB;A=GOLD/R0000000003 arrived {T}
recipient 1 delivered {T} C=GB;A=GOLD;S=BELL
"""
REPORTED = """item 1 message C=GB;A=GOLD/M0001 arrived {T}
recipient 1 reported {T} 1 0 C=GB;A=GOLD;S=WATT
item 2 report C=GB;A=GOLD/R0000000002 arrived {T}
recipient 1 delivered {T} C=GB;A=GOLD;S=BELL
item 3 probe C=GB;A=GOLD/P0001 arrived {T}
recipient 1 affirmed {T} C=GB;A=GOLD;S=WATT
item 4 report C=GB;A=GOLD/R0000000004 arrived {T}
recipient 1 delivered {T} C=GB;A=GOLD;S=BELL
"""
EXPIRED = "item 2 report C=GB;A=GOLD/R0000000002 arrived {U}\nrecipient 1 delivered {U} C=GB;A=GOLD;S=BELL\n"
WAITING = TO_SILVER + "item 2 message C=GB;A=GOLD/M0009 arrived {T}\nrecipient 1 pending C=GB;A=GOLD;S=WATT\n"
# what is delivered at home where a message more is taken, of this number
ONE_MORE = "item {item} message C=GB;A=GOLD/M0001 arrived {T}\nrecipient 1 delivered {T} C=GB;A=GOLD;S=WATT\n"
SENT_TOO = "item 2 message C=GB;A=GOLD/M0008 arrived {T}\nrecipient 1 sent {T} silver C=GB;A=SILVER;S=MORSE\n"
GOT_TOO = "item 2 message C=GB;A=GOLD/M0008 arrived {T}\nrecipient 1 delivered {T} C=GB;A=SILVER;S=MORSE\n"


def text(*parts, **said):
    return "".join(parts).format(T=TIME, U=NEXT_TIME, **said)


def spools():
    """Of each spool its name, the text of its tables, whether it has two areas, its steps, and its queue."""
    only_bell = sample("list.tables").replace(b"mailbox watt C=GB;A=GOLD;S=WATT\n", b"")
    gold, silver = own("gold.tables"), own("silver.tables")
    calls = [tables(gold), accept(TO_MORSE), open_lane(0, b"silver"), AGREE, START]
    called = [tables(silver), open_lane(1, b"gold"), secure(COPY[:PIECE])]
    done = [*called, complete(COPY[PIECE:]), deliver(1)]
    pending = "pending"
    return [
        ("delivered", "list", False, [tables(sample("list.tables")), accept(sample("message.ber")), deliver(1)],
         text(DELIVERED)),
        ("waiting", "gold", True, [tables(gold), accept(TO_MORSE), accept(DEFERRED)], text(WAITING, status=pending)),
        ("lists", "list", False,
         [tables(sample("list.tables")), accept(sample("message-list.ber")), expand(1), deliver(2), report(2, 2),
          deliver(3)],
         text(LISTED)),
        ("reports", "list", True,
         [tables(only_bell), accept(sample("message.ber")), report(1), deliver(2), tables(sample("list.tables")),
          accept(sample("probe.ber")), affirm(3), deliver(4)],
         text(REPORTED)),
        ("idle", "gold", False, [*calls, CONFIRM, ENDING, SENT],
         text(TO_SILVER, OUT, status=f"sent {TIME} silver", half="idle 1")),
        ("sending", "gold", False, [*calls, CONFIRM], text(TO_SILVER, OUT, status=pending, half="sending 1 1")),
        ("ending", "gold", True, [*calls, CONFIRM, ENDING], text(TO_SILVER, OUT, status=pending, half="ending 1 1")),
        ("dropping", "gold", False, [*calls, CONFIRM, ABANDON, deliver(2, MOMENT + DAY)],
         text(TO_SILVER, EXPIRED, OUT, status=f"reported {NEXT_TIME} 0 5", half="dropping 1")),
        ("partial", "silver", True, called, text(IN, half="partial 1 1")),
        ("done", "silver", False, done, text(AT_SILVER, IN, half="done 1")),
    ]


# Two ends of a lane, whether a message more is submitted to the first, and both queues behind one association.
ENDS = [
    ("sending", "partial", False, text(TO_SILVER, status=f"sent {TIME} silver"), text(AT_SILVER)),
    ("ending", "done", False, text(TO_SILVER, status=f"sent {TIME} silver"), text(AT_SILVER)),
    ("idle", "done", True, text(TO_SILVER, SENT_TOO, status=f"sent {TIME} silver"), text(AT_SILVER, GOT_TOO)),
    ("dropping", "partial", False, text(TO_SILVER, EXPIRED, status=f"reported {NEXT_TIME} 0 5"), ""),
]
# Those that take one message more by themselves, and its number.
ALONE = [("delivered", 2), ("waiting", 3), ("lists", 4), ("reports", 5)]


def write_full(path, size):
    """A spool of one area of so many octets, with messages that wait, whose contents are holes in the file."""
    begins = b"MTASPL01" + tools.record(tables(own("gold.tables")))
    frame, around = 5 + len(accept(b"")), len(message(b"M0007", MORSE, bytes(1 << 20))) - (1 << 20)
    left = size - len(begins) - 1
    count = left // (frame + LONGEST) - 1
    left -= count * (frame + LONGEST)  # of two more messages
    with open(path, "wb") as file:
        file.write(begins)
        for need in [frame + LONGEST] * count + [left // 2, left - left // 2]:
            octets = message(b"M0007", MORSE, bytes(need - frame - around))
            head = tools.record(accept(octets)).rstrip(b"\x00")
            file.write(head)
            file.seek(need - len(head), os.SEEK_CUR)
        file.write(b"\x00")


def make():
    for spool, _, has_two, steps, queue in spools():
        areas = [b"\xff" + bytes(9)] if has_two else []
        octets = b"MTASPL01" + b"".join(tools.record(it) for it in areas + steps) + b"\x00"
        with open(f"{SPOOLS}/{spool}.spool", "wb") as file:
            file.write(octets)
        with open(f"{SPOOLS}/{spool}.txt", "w", encoding="utf-8") as file:
            file.write(queue)


class Copies:
    """Copies of the spools, each in a folder of its own, and the program that opens them."""

    def __init__(self, mta, folder):
        self.mta, self.folder, self.made = mta, folder, 0

    def copy(self, spool, of_tables):
        self.made += 1
        at = f"{self.folder}/{self.made}-{spool}"
        os.makedirs(at)
        shutil.copy(f"{SPOOLS}/{spool}.spool", f"{at}/mta.spool")
        shutil.copy(f"{SAMPLES}/list.tables" if of_tables == "list" else f"{SPOOLS}/{of_tables}.tables",
                    f"{at}/mta.tables")
        return at

    def begun(self, at, *words, given=b""):
        how = {"stdin": subprocess.PIPE, "stdout": subprocess.PIPE, "cwd": at}
        running = subprocess.Popen([self.mta, *words], **how)
        running.stdin.write(given)
        running.stdin.close()
        return running

    def wants(self, at, words, wanted, given=b""):
        ended(self.begun(at, *words, given=given), f"{os.path.basename(at)}: mta {' '.join(words)}", wanted)


def ended(running, what, wanted, status=0):
    said = running.stdout.read().decode()
    if running.wait() != status or said != wanted:
        sys.exit(f"{what}: status {running.returncode}, and\n{said}in place of\n{wanted}")


def opens(copies, spool, of_tables, queue):
    """A copy is opened twice; its folder."""
    at = copies.copy(spool, of_tables)
    older = own(f"{spool}.spool")
    for _ in range(2):
        copies.wants(at, ["spool"], queue)
        with open(f"{at}/mta.spool", "rb") as file:
            octets = file.read()
        # the format behind what stands, in the place of the closed gate, and nothing else
        if octets != older[:-1] + FORMAT + b"\x00":
            sys.exit(f"{spool}: not the older spool with a format behind it")
    return at


def try_full(copies):
    """The last size at which the format fits, and the next one."""
    for size, is_full in ((MOST - 10, False), (MOST - 9, True)):
        at = copies.copy("waiting", "gold")
        write_full(f"{at}/mta.spool", size)
        running = copies.begun(at, "spool")
        if is_full:
            ended(running, f"a spool of {size} octets", f"spool full {size} 10\n", status=5)
        elif running.stdout.read().count(b" pending ") < 256 or running.wait() != 0:
            sys.exit(f"a spool of {size} octets: status {running.returncode}")
        if os.path.getsize(f"{at}/mta.spool") != (size if is_full else MOST):
            sys.exit(f"a spool of {size} octets has {os.path.getsize(f'{at}/mta.spool')} behind its opening")
        os.remove(f"{at}/mta.spool")
    print(f"the format of an older spool fits up to {MOST - 10} octets, and is refused from there on")


def meet(copies, first, second):
    """One association: the agent in the first folder calls the one in the second."""
    port = str(tools.free_port())
    said = "station 1 sessions 1 closed 1\n"
    # a caller calls again for a minute where nobody listens yet
    called = copies.begun(second, "serve", "1", f"in:{port}")
    copies.wants(first, ["serve", "1", f"out:silver:127.0.0.1:{port}"], said)
    ended(called, f"{os.path.basename(second)}: mta serve", said)


def try_all(mta, folder):
    copies, all_of = Copies(mta, folder), {it[0]: it for it in spools()}

    def opened(spool):
        _, of_tables, _, _, queue = all_of[spool]
        return opens(copies, spool, of_tables, queue)

    for spool, number in ALONE:
        at = opened(spool)
        copies.wants(at, ["submit"], f"accepted {number}\n", sample("message.ber"))
        copies.wants(at, ["spool"], all_of[spool][4] + text(ONE_MORE, item=number))
    for first, second, is_more, left, right in ENDS:
        gold, silver = opened(first), opened(second)
        if is_more:
            copies.wants(gold, ["submit"], "accepted 2\n", TO_COME)
        meet(copies, gold, silver)
        copies.wants(gold, ["spool"], left)
        copies.wants(silver, ["spool"], right)
    print(f"{len(all_of)} older spools are opened, print the same, have the format, and are served on")
    try_full(copies)


if __name__ == "__main__":
    if sys.argv[1:] == ["make"]:
        make()
    else:
        try_all(os.path.abspath(sys.argv[1]), os.path.abspath(sys.argv[2]))
