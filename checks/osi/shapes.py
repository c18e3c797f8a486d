"""Shapes that other makers' octets have, made by hand from the standards as they are remembered: each is taken,
refused, or ends both sides, as docs/OSI.md says. shapes.py"""
from played import GOLD, MESSAGE, OUT, End, Unwritten, ber, peers, recorded, rtse, session, tpkt, units

import acse  # noqa: E402
import presentation  # noqa: E402
from primitives import Address, NormalMode  # noqa: E402

REFERENCE = session.Reference(b"GOLD-1/0000000001", b"261202040154Z")
CALL = bytes([14, 0xE0, 0, 0, 0, 7, 0, 0xC1, 1, 65, 0xC2, 3]) + b"MTA"
BIND = rtse.Opening(17, 3, rtse.TWO_WAY, rtse.Bind(GOLD.encode(), b"ours"))
RECOVERY = BIND._replace(bind=None, recovered=REFERENCE)
CALLING = Address(b"", b"", b"", acse.Title(ber.object_identifier("2.6.0.1.1")))


def packet(pdu):
    found = []
    tpkt.Transport(found.append).put(pdu)
    return b"".join(found)


class Foreign:
    """A peer made of octets, which calls a bridge. `end` is that bridge, with a plain station behind it."""

    def __init__(self, lanes=None, settings=None, call=CALL):
        self.mode = NormalMode()
        self.end = End("in", lanes, settings)
        self.taken = 0
        self.end.received(tpkt.packet(call))

    def put(self, *pdus):
        for pdu in pdus:
            self.end.received(packet(pdu))
        return self.got()

    def got(self):
        """The session PDUs that the bridge put since."""
        reader = tpkt.Transport(lambda _: None)
        reader.open, reader.longest = True, 1 << 22
        packets, self.taken = self.end.packets[self.taken:], len(self.end.packets)
        found = [pdu for it in packets if it[5] == 0xF0 for pdu in reader.received(it)]
        return [it for pdu in found for it in session.read(pdu)]

    def connect(self, opening=BIND):
        got = self.put(self.mode.connect(REFERENCE, Address(), CALLING, opening))
        assert [it.name for it in got] == ["accept", "please"], got
        return got[0]

    def is_over(self):
        return self.end.association.is_over


def names(pdus):
    return [it.name for it in pdus]


def replaced(octets, old, new):
    assert octets.count(old) == 1, (octets.count(old), old.hex())
    return octets.replace(old, new)


def asked(change=lambda it: it, **known):
    """What a bridge answers to a CONNECT that is changed."""
    it = Foreign(**known)
    octets = it.mode.connect(REFERENCE, Address(), CALLING, BIND)
    return it.put(change(octets))


def versions():
    one = b"\x16\x01\x02"
    accepted = asked(lambda it: replaced(it, one, b"\x16\x01\x03"))[0]
    assert accepted.name == "accept" and accepted.values[session.CONNECT_ITEM][session.VERSION] == b"\2"
    refused = asked(lambda it: replaced(it, one, b"\x16\x01\x01"))[0]
    assert (refused.name, refused.values[session.REASON]) == ("refuse", b"\x84")


def functional_units():
    accepted = asked(lambda it: replaced(it, b"\x14\x02\x02\x49", b"\x14\x02\x0F\xFF"))[0]
    assert session.requirements_of(accepted.values) == session.NEEDED
    assert names(asked(lambda it: replaced(it, b"\x14\x02\x02\x49", b"\x14\x02\x02\x41"))) == ["refuse"]


def tokens():
    mine = b"\x1A\x01\x00"
    assert names(asked(lambda it: replaced(it, mine, b"\x1A\x01\x2A")))[0] == "accept"
    assert names(asked(lambda it: replaced(it, mine, b"\x1A\x01\x15"))) == ["refuse"]


def segments():
    """A segment size is answered by none; data in segments are an error."""
    item = b"\x05\x09\x13\x01\x00\x16\x01\x02\x1A\x01\x00"
    sized = b"\x05\x0F\x13\x01\x00\x15\x04\x04\x00\x04\x00\x16\x01\x02\x1A\x01\x00"

    def change(it):
        found = replaced(it, item, sized)
        size = int.from_bytes(found[2:4], "big") if found[1] == 255 else found[1]
        return found[:1] + session.parameter(0, b"x" * (size + 6))[1:-size - 6] + found[4 if found[1] == 255 else 2:]
    accepted = asked(change)[0]
    assert accepted.name == "accept" and session.TSDU_SIZE not in accepted.values[session.CONNECT_ITEM]


def transports():
    """Classes 2 and 0, class 4 alone, and a small size of TPDUs."""
    two = Foreign(call=bytes([17]) + CALL[1:6] + b"\x20" + CALL[7:] + b"\xC7\x01\x00")
    assert two.end.packets[0][5] & 0xF0 == 0xD0 and two.end.packets[0][10] == 0
    four = Foreign(call=CALL[:6] + b"\x40" + CALL[7:])
    assert four.end.packets[0][5] & 0xF0 == 0x80 and four.is_over()
    small = Foreign(call=bytes([17]) + CALL[1:] + b"\xC0\x01\x07")
    small.connect()
    assert all(len(it) <= 4 + 128 for it in small.end.packets) and len(small.end.packets) > 3


def renumbered(it, numbers, extra):
    """The octets of a CONNECT with contexts of other numbers, in another order, of several encodings, and some more."""
    old = presentation.definitions()
    encodings = ber.element(0x30, *(ber.object_identifier(name) for name in ("2.1.2.1", presentation.BASIC_ENCODING)))
    named = list(zip(numbers, presentation.SYNTAXES))
    made = [ber.element(0x30, ber.integer(number), ber.object_identifier(name), encodings)
            for number, name in [named[1], (extra, "2.6.0.2.99"), named[2], named[0]]]
    return old, ber.element(0xA4, *made)


def contexts():
    """Contexts numbered and ordered as another maker does, and one that is not known."""
    it = Foreign()
    it.mode.contexts = presentation.Contexts(31, 11, 21, (11, 7, 21, 31))
    kept, presentation.definitions = presentation.definitions, None
    ours = presentation.OURS
    try:
        presentation.OURS = presentation.Contexts(31, 11, 21, (1, 3, 5))
        presentation.definitions = kept
        old, new = renumbered(it, (31, 11, 21), 7)
        presentation.definitions = lambda: new
        octets = it.mode.connect(REFERENCE, Address(), CALLING, BIND)
    finally:
        presentation.OURS, presentation.definitions = ours, kept
    got = it.put(octets)
    assert got[0].name == "accept", got
    results = dict(ber.parts(dict(ber.parts(ber.only(0x31, got[0].user)))[0xA2]))[0xA5]
    assert [dict(ber.parts(content))[0x80] for _, content in ber.parts(results)] == [b"\0", b"\2", b"\0", b"\0"]
    whole = it.mode.wrapper(MESSAGE)[0] + MESSAGE
    got = it.put(session.start(b"\2\1\1"), it.mode.data(whole), session.at_point("end", 1))
    assert names(got) == ["end_ack"] and it.end.agent.octets == MESSAGE


def further_components():
    """An AARQ with a version, both titles, invocation identifiers and implementation information."""
    it = Foreign()
    rtorq = rtse.request(BIND, rtse.ARGUMENT)
    more = [ber.element(0x80, b"\7\x80"), ber.element(0xA1, ber.object_identifier(acse.MTS_TRANSFER)),
            ber.element(0xA2, ber.object_identifier("2.6.0.1.2")), ber.element(0xA3, ber.integer(5)),
            ber.element(0xA4, ber.integer(1)), ber.element(0xA6, ber.object_identifier("2.6.0.1.1")),
            ber.element(0xA7, ber.integer(6)), ber.element(0xA8, ber.integer(2)),
            ber.element(0x9D, b"maker"), acse.user(3, rtorq)]
    user = presentation.connect(b"", b"", ber.element(0x60, *more))
    got = it.put(session.connect(rtse.reference_parts(REFERENCE), b"", b"", user))
    assert got[0].name == "accept"


def application_contexts():
    got = asked(lambda it: replaced(it, ber.object_identifier(acse.MTS_TRANSFER), ber.object_identifier("2.6.0.1.9")))
    assert names(got) == ["refuse"]
    aare = presentation.read_refuse(got[0].values[session.REASON][1:])
    assert acse.read_response(aare, 3).result == acse.REJECTED and ber.element(0xA1, ber.integer(2)) in aare


def addresses():
    other = Address(b"", b"", b"", acse.Title(ber.object_identifier("2.6.0.1.77")))
    it = Foreign()
    assert names(it.put(it.mode.connect(REFERENCE, Address(), other, BIND))) == ["refuse"]
    it = Foreign(call=CALL[:-1] + b"X")
    assert names(it.put(it.mode.connect(REFERENCE, Address(), CALLING, BIND))) == ["refuse"]


def binds():
    """NULL where it is configured, and where it is not; a reference in Teletex with an additional part."""
    null = BIND._replace(bind=rtse.Bind())
    it = Foreign()
    assert names(it.put(it.mode.connect(REFERENCE, Address(), CALLING, null))) == ["refuse"]
    known = peers.settings_of("null", f"peer {GOLD}\nbind null\npeer-password ours\n")
    it = Foreign(settings=[known])
    parts = ber.element(0x14, b"OTHER MAKER"), ber.element(0x17, b"2612020401Z"), ber.element(0x14, b"7")
    aarq = acse.request(acse.MTS_TRANSFER, acse.Title(), acse.Title(), 3, rtse.request(null, rtse.ARGUMENT))
    got = it.put(session.connect(parts, b"", b"", presentation.connect(b"", b"", aarq)))
    assert got[0].name == "accept"
    lane = it.end.association.lane
    assert lane.reference == session.Reference(b"GOLD-1", b"2612020401Z", b"=11=OTHER MAKER=7")


def several_values():
    """An RTTR in segments, several RTTRs up to a checkpoint, and several values in one data PDU."""
    it = Foreign()
    it.connect()
    whole = it.mode.wrapper(MESSAGE)[0] + MESSAGE
    a, b, c, d = whole[:30], whole[30:50], whole[50:90], whole[90:]
    lists = presentation.value_list(3, ber.element(4, b)) + presentation.value_list(3, ber.element(4, c))
    segmented = ber.element(0x24, ber.element(4, a[:10]), ber.element(0x24, ber.element(4, a[10:])))
    got = it.put(session.start(b"\1\2\3\4\5\6"), session.data(presentation.user_data(3, segmented)),
                 session.data(ber.element(0x61, lists)), it.mode.data(d), session.at_point("end", 1))
    assert names(got) == ["end_ack"] and it.end.agent.octets == MESSAGE


def endings():
    """The end of an EXTERNAL of indefinite length, wherever the last RTTRs are cut, and after a restart of the bridge
    at the first checkpoint."""
    whole = b"\x28\x80\x02\x01\x05\xA0\x80" + MESSAGE + b"\0\0\0\0"
    for cut in range(len(whole) - 9, len(whole)):
        for further in (cut, *range(cut + 2, len(whole))):
            pieces = [it for it in (whole[:40], whole[40:cut], whole[cut:further], whole[further:]) if it]
            for restarted in (False, True):
                through(pieces, restarted)


def through(pieces, restarted):
    """An activity of these RTTRs arrives whole, also where the bridge is another one after the first confirmation."""
    lanes = Unwritten()
    it = Foreign(lanes)
    it.connect()
    it.put(session.start(b"\2\1\1"))
    confirmed = 0
    for point, piece in enumerate(pieces, 1):
        is_last = point == len(pieces)
        got = it.put(it.mode.data(piece), session.at_point("end" if is_last else "minor", point))
        confirmed = max([confirmed, *(session.point_of(pdu.values) for pdu in got if pdu.name == "minor_ack")])
        if restarted and point == 1:
            octets = it.end.agent.octets
            it = Foreign(lanes)
            it.connect(RECOVERY)
            it.end.agent.octets = octets
            it.put(session.resume(b"\2\1\2", b"\2\1\1", confirmed, rtse.reference_parts(REFERENCE)))
            assert confirmed == 1
    assert names(got)[-1:] == ["end_ack"] and it.end.agent.octets == MESSAGE, (pieces, names(got), it.end.said)


def beginnings():
    """A peer that begins again in place of resuming: what stood in part is discarded first."""
    it = Foreign()
    it.connect()
    whole = it.mode.wrapper(MESSAGE)[0] + MESSAGE
    lanes = it.end.association.map
    it.put(session.start(b"\2\1\1"), it.mode.data(whole[:50]), session.at_point("minor", 1))
    it = Foreign(lanes)
    it.connect(RECOVERY)
    told = []
    answer = it.end.agent.got
    it.end.agent.got = lambda kind, body: told.append((kind, body[:4])) or answer(kind, body)
    got = it.put(session.start(b"\2\1\1"), it.mode.data(whole), session.at_point("end", 1))
    assert names(got) == ["end_ack"]
    assert [it[0] for it in told] == [units.DISCARD, units.START, units.DATA, units.END], told
    assert told[0][1] == b"\0\0\0\1" and told[1][1] == b"\0\0\0\2"


def resumptions():
    """At 0 with data, at 0 with a discard, of an activity that never came, and of another association's."""
    parts = rtse.reference_parts(REFERENCE)
    other = rtse.reference_parts(REFERENCE._replace(calling=b"GOLD-1/0000000009"))
    it = Foreign()
    it.connect()
    whole = it.mode.wrapper(MESSAGE)[0] + MESSAGE
    got = it.put(session.resume(b"\2\1\7", b"\2\1\7", 0, parts), session.discard())
    assert names(got) == ["discard_ack"]
    got = it.put(session.resume(b"\2\1\7", b"\2\1\7", 0, parts), it.mode.data(whole), session.at_point("end", 1))
    assert names(got) == ["end_ack"] and it.end.agent.octets == MESSAGE
    for reference, point in ((other, 0), (other, 3), (parts, 3)):
        again = Foreign(it.end.association.map)
        again.connect(RECOVERY)
        got = again.put(session.resume(b"\2\1\x09", b"\2\1\x09", point, reference))
        assert names(got) == ["abort"] and again.mode.primitive(got[0])[1] == rtse.TEMPORARY_PROBLEM
        assert not any(kind in (units.START, units.RESUME, units.DISCARD) for kind, _ in again.end.units)


def unknown_lanes():
    """An association that the map does not have is refused as busy, and nothing is concluded."""
    it = Foreign()
    got = it.put(it.mode.connect(REFERENCE, Address(), CALLING, RECOVERY))
    assert it.mode.primitive(got[0]) == ("refuse", rtse.BUSY)
    known = peers.settings_of("resumed", f"peer {GOLD}\nunknown-lane resume\n")
    it = Foreign(settings=[known])
    it.connect(RECOVERY)
    got = it.put(session.resume(b"\2\1\1", b"\2\1\1", 0, rtse.reference_parts(REFERENCE)))
    assert names(got) == ["abort"]


def called(*pdus, settings=OUT):
    """Our agent calls: what it gets once the peer puts these."""
    end = End("out", settings=settings)
    end.agent.begin()
    end.settle()
    end.received(tpkt.packet(bytes([6, 0xD0, 0, 1, 0, 9, 0])))
    told = []
    answer = end.agent.got
    end.agent.got = lambda kind, body: told.append((kind, body)) or answer(kind, body)
    for pdu in pdus:
        end.received(packet(pdu))
    last = end.association.last_word
    return told, (last[4], last[5:]) if last else None


def bare_answers():
    """Refusals and aborts that say nothing settle nothing."""
    busy, abort = units.REJECT, units.ABORT
    for refusal in (session.refuse(0), session.refuse(0x81), session.refuse(1)):
        assert called(refusal)[1] == (busy, rtse.plain_refusal(rtse.BUSY))
    mode = NormalMode()
    accept = mode.accept(REFERENCE, Address(), rtse.Opening(2, 3, 0, rtse.Bind(b"SILVER-1", b"theirs")))
    provider = session.abort(ber.element(0x30, ber.integer(1, 0x80)))
    settling = [mode.abort(it) for it in (rtse.TRANSFER_COMPLETED, rtse.UNRECOGNIZED_ACTIVITY)]
    for pdu in (session.abort(b""), provider, *settling, session.exception(),
                session.parameter(25, session.parameter(17, b"\5"))):
        told, last = called(accept, pdu)
        assert told[0][0] == units.ACCEPT and last == (abort, rtse.aborted(rtse.TEMPORARY_PROBLEM)), (pdu.hex(), last)
    # a confirmation of what was not put
    for pdu in (session.at_point("minor_ack", 9), session.at_point("end_ack", 9), session.behind("discard_ack")):
        assert called(accept, pdu)[1] == (abort, rtse.aborted(rtse.PROTOCOL_ERROR))


def denied_discards():
    """Where a peer is configured so, the discard of what was put whole is not put: our agent is told that the activity
    is not known. Of an activity whose end was not put it is."""
    known = peers.settings_of("denies", "peer SILVER-1\ndiscard-after-end deny\n")
    lanes, mode = Unwritten(), NormalMode()
    answer = rtse.Opening(2, 3, 0, rtse.Bind(b"SILVER-1", b"theirs"))
    confirm = tpkt.packet(bytes([6, 0xD0, 0, 1, 0, 9, 0]))
    end = End("out", lanes, known)
    end.agent.begin()
    end.settle()
    end.received(confirm)
    end.received(packet(mode.accept(REFERENCE, Address(), answer)))
    end.received(packet(session.at_point("minor_ack", 2)))
    for number, word, last in ((1, None, rtse.aborted(rtse.UNRECOGNIZED_ACTIVITY)), (2, "discard", None)):
        again = End("out", lanes, known)
        again.agent.begin(recovered=True)
        again.agent.got = lambda kind, body, it=number: \
            [(units.DISCARD, it.to_bytes(4, "big"))] if kind == units.ACCEPT else []
        again.settle()
        again.received(confirm)
        resumed = answer._replace(bind=None, recovered=REFERENCE)
        again.received(packet(mode.accept(REFERENCE, Address(), resumed)))
        put = [pdu.name for it in again.packets if it[5] == 0xF0 for pdu in session.read(it[7:])]
        assert ("discard" in put) == (word == "discard"), put
        assert again.association.last_word == (last and units.unit(units.ABORT, body=last))


def names_and_passwords():
    """Either side has its own."""
    text = ("peer SILVER-1\npeer-mta-name OTHER MTA/1\npeer-password theirs\npeer-osi-password A b\n"
            "agent-mta-name GOLD MTA\nagent-osi-password \n")
    end = End("out", settings=peers.settings_of("out", text))
    end.agent.begin()
    end.settle()
    end.received(tpkt.packet(bytes([6, 0xD0, 0, 1, 0, 9, 0])))
    asked = NormalMode().read(end.packets[1][7:])[0][1]
    assert asked.opening.bind == rtse.Bind(b"GOLD MTA", b"") and asked.reference.calling == b"GOLD MTA/0000000001"
    told = []
    end.agent.got = lambda kind, body: told.append((kind, body)) or []
    bind = rtse.Bind(b"OTHER MTA/1", b"A b")
    end.received(packet(NormalMode().accept(asked.reference, Address(), rtse.Opening(2, 3, 0, bind))))
    assert rtse.opening_of(told[0][1], rtse.ACCEPTED, None).bind == rtse.Bind(b"SILVER-1", b"theirs")
    wrong = NormalMode().accept(asked.reference, Address(), rtse.Opening(2, 3, 0, bind._replace(password=b"a b")))
    assert called(wrong, settings=peers.settings_of("out", text))[1] == (
        units.ABORT, rtse.aborted(rtse.PERMANENT_PROBLEM))


def older_mode():
    """X.410-1984 mode, between two bridges, and where it is not configured: nothing else was there to try it with."""
    extra = "application-context mts-transfer-protocol\n"
    called_by = peers.settings_of("in", f"peer {GOLD}\n{extra}")
    packets = recorded(peers.settings_of("out", f"peer SILVER-1\n{extra}"), [called_by])
    first = [it for way, it in packets if way == "O"][1]
    assert session.read(first[7:])[0].values[session.CONNECT_ITEM][session.VERSION] == b"\1"
    end = End("in")
    for packet_of in [it for way, it in packets if way == "O"][:2]:
        end.received(packet_of)
    assert end.association.is_over and not end.units


CASES = (denied_discards, names_and_passwords, older_mode, versions, functional_units, tokens, segments, transports,
         contexts, further_components, application_contexts, addresses, binds, several_values, endings, beginnings,
         resumptions, unknown_lanes, bare_answers)

if __name__ == "__main__":
    for case in CASES:
        case()
        print(f"{case.__name__.replace('_', ' ')}: as they have to be")
