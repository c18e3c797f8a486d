"""What other makers' octets may do to a bridge: each cut and each changed octet of a recorded session, wrong orders,
wrong lengths, nesting and concatenation. It ends in a message, an abort, a refusal or a close, and in nothing else.
hostile.py [CHANGES]: so many values for each octet (3)"""
import random
import sys

from played import End, recorded, session, tpkt

MOST_MEMORY = 4 << 20


def played(way, packets):
    """An end that gets these packets. How it ended."""
    end = End(way)
    if way == "out":
        end.agent.begin()
        end.settle()
    goes_on = True
    for packet in packets:
        goes_on = end.received(packet)
        assert len(end.transport.part) + len(end.transport.come) < MOST_MEMORY
        if not goes_on:
            break
    if goes_on:
        end.association.agent_is_gone()
        return "closed"
    if end.association.ends_well:
        return "ended well"
    return "message and abort" if end.agent.got_message else "abort"


def counted(outcomes):
    return ", ".join(f"{outcomes.count(it)} {it}" for it in sorted(set(outcomes)))


def cuts(way, packets):
    """The session as it came, cut behind each octet."""
    outcomes = []
    for at, packet in enumerate(packets):
        outcomes += [played(way, [*packets[:at], packet[:size]]) for size in range(len(packet))]
    return counted(outcomes)


def changes(way, packets, count, made):
    outcomes = []
    for at, packet in enumerate(packets):
        for place, octet in enumerate(packet):
            for value in {octet ^ 1, octet ^ 0x80, 0xFF, 0, *made.sample(range(256), 5)}.difference({octet}):
                if len(outcomes) % 9 < count:
                    changed = packet[:place] + bytes([value]) + packet[place + 1:]
                    outcomes.append(played(way, [*packets[:at], changed, *packets[at + 1:]]))
                else:
                    outcomes.append("left out")
    return counted([it for it in outcomes if it != "left out"])


def orders(way, packets, made):
    """The session with packets twice, left out, or in another order."""
    outcomes = []
    for _ in range(2000):
        mixed = list(packets)
        for _ in range(made.randint(1, 3)):
            at = made.randrange(len(mixed))
            does = made.randint(0, 2)
            if does == 0:
                mixed.insert(at, made.choice(packets))
            elif does == 1:
                mixed.pop(at)
            else:
                mixed.insert(made.randrange(len(mixed)), mixed.pop(at))
        outcomes.append(played(way, mixed))
    return counted(outcomes)


def packet_of(pdu):
    found = []
    transport = tpkt.Transport(found.append)
    transport.put(pdu)
    return b"".join(found)


def depth(levels):
    return b"\x30\x80" * levels + b"\0\0" * levels


def shaped():
    """Octets of wrong shapes, each by itself behind a session that stands."""
    yield "groups in groups", session.parameter(13, b"\x01\xFF\x7F\xFF" * 2000)
    yield "deep data", session.data(b"\x61\x80\x30\x80\x02\x01\x03\xA0\x80" + depth(5000))
    yield "deep strings", session.data(b"\x61\x80\x30\x80\x02\x01\x03\xA0\x80" + b"\x24\x80" * 5000)
    yield "a great length", session.data(b"\x61\x84\xFF\xFF\xFF\xFF")
    yield "an extended concatenation", session.parameter(1) + session.parameter(45, b"\x29\x01\1") * 2
    yield "a token that is given", session.parameter(1, b"\x10\x01\x01")
    yield "data in segments", session.parameter(1) + session.parameter(1, b"\x19\x01\1") + b"xx"
    yield "a long serial number", session.behind("minor", session.parameter(42, b"1" * 7))
    yield "a serial number of no digits", session.behind("minor", session.parameter(42, b"-1"))
    yield "a long identifier", session.behind("start", session.parameter(41, b"\2\5" + b"1" * 5))
    yield "an interruption", session.behind("interrupt", session.parameter(50, b"\0"))
    yield "capability data", session.parameter(1) + session.parameter(61)
    yield "nothing", b""


def shapes(opened):
    for name, pdu in shaped():
        outcome = played("in", [*opened, packet_of(pdu)])
        assert outcome in ("abort", "closed"), (name, outcome)
        yield name


def main(count="3"):
    made = random.Random(5)
    session_packets = recorded()
    for way, side in (("in", "O"), ("out", "I")):
        packets = [packet for it, packet in session_packets if it == side]
        size = sum(map(len, packets))
        assert played(way, packets) == "ended well"
        print(f"{way}: {len(packets)} packets, {size} octets")
        print(f"  cut behind each octet: {cuts(way, packets)}", flush=True)
        print(f"  each octet changed: {changes(way, packets, int(count), made)}", flush=True)
        print(f"  other orders: {orders(way, packets, made)}", flush=True)
    opened = [packet for it, packet in session_packets if it == "O"][:2]
    print(f"wrong shapes: {', '.join(shapes(opened))}")


if __name__ == "__main__":
    main(*sys.argv[1:])
