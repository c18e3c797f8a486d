"""What the codecs write they read: values made at random, of each layer. values.py [COUNT [SEED]]"""
import random
import sys
from pathlib import Path

sys.path.insert(0, str(Path(__file__).resolve().parents[2] / "contrib" / "osi"))
import acse  # noqa: E402
import ber  # noqa: E402
import presentation  # noqa: E402
import rtse  # noqa: E402
import session  # noqa: E402
import tpkt  # noqa: E402
import units  # noqa: E402
from primitives import Address, NormalMode  # noqa: E402

made = random.Random()


def octets(most, least=0):
    return made.randbytes(made.randint(least, most))


def length():
    return made.choice((0, 1, 127, 128, 255, 256, 512, 513, made.randint(0, 3000), made.randint(0, 70_000)))


def same(one, other):
    assert one == other, (one, other)


def reference():
    return session.Reference(octets(60), b"261202040154Z", octets(2))


def identifier():
    return octets(6, 1)


def elements():
    """Integers, object identifiers, and elements one behind another."""
    number = made.getrandbits(made.randint(0, 62))
    same(ber.number(ber.only(2, ber.integer(number))), number)
    arcs = [made.randint(0, 2), made.randint(0, 39), *(made.getrandbits(made.randint(1, 28)) for _ in range(5))]
    text = ".".join(map(str, arcs))
    same(ber.identifier_text(ber.only(6, ber.object_identifier(text))), text)
    parts = [(made.choice((0x02, 0x04, 0x80, 0xA1, 0x30)), octets(300)) for _ in range(made.randint(0, 5))]
    same(ber.parts(b"".join(ber.element(*it) for it in parts)), parts)


def transport():
    """Session PDUs through two ends that agree on a size, however their octets are cut."""
    back, forth = bytearray(), bytearray()
    caller, called = tpkt.Transport(forth.extend), tpkt.Transport(back.extend)
    selectors = octets(10), octets(10)
    caller.call(*selectors)
    same(called.received(bytes(forth)), [])
    same(caller.received(bytes(back)), [])
    same((called.calling, called.called), selectors)
    forth.clear()
    called.longest = 100_000
    pdus = [octets(length(), 0) for _ in range(made.randint(1, 3))]
    for pdu in pdus:
        caller.put(pdu)
    got = []
    while forth:
        cut = made.choice((1, 3, 7, 100, 5000, len(forth)))
        got += called.received(bytes(forth[:cut]))
        del forth[:cut]
    same(got, pdus)


def sessions():
    """Session PDUs: each kind with its parameters."""
    point, name, old = made.randint(0, 999_999), identifier(), identifier()
    kind = made.choice(("minor", "minor_ack", "end", "end_ack"))
    pdu = session.read(session.at_point(kind, point))
    same((pdu[0].name, session.point_of(pdu[0].values)), (kind, point))
    pdu = session.read(session.start(name))[0]
    same((pdu.name, session.identifier_of(pdu.values)), ("start", name))
    values = rtse.reference_parts(reference())
    pdu = session.read(session.resume(name, old, point, values))[0]
    link = session.group_of(pdu.values, session.LINKING)
    same((session.identifier_of(pdu.values), session.identifier_of(link), session.point_of(link)), (name, old, point))
    same(session.reference_values(link, session.CALLING_REFERENCE)[:len(values)], values)
    user = octets(length())
    same(session.read(session.data(user)), [session.Pdu("data", {}, user)])
    user = user[:60_000]
    pdu = session.read(session.connect(values, octets(16), octets(16), user))[0]
    same((pdu.name, pdu.user), ("connect", user))
    pdu = session.read(session.abort(user))[0]
    same((pdu.name, pdu.user), ("abort", user))


def contexts():
    """Three contexts of identifiers of their own among others."""
    numbers = made.sample(range(1, 255, 2), made.randint(3, 9))
    return presentation.Contexts(*numbers[:3], tuple(made.sample(numbers, len(numbers))))


def presentations():
    calling, called, apdu = octets(16), octets(16), octets(length())
    got = presentation.read_connect(presentation.connect(calling, called, apdu))
    same(got, presentation.Connect(calling, called, presentation.OURS, apdu))
    same(presentation.read_accept(presentation.accept(octets(9), presentation.OURS, apdu)), apdu)
    same(presentation.read_refuse(presentation.refuse(presentation.OURS, apdu)), apdu)
    agreed = contexts()
    same(presentation.read_abort(presentation.abort(agreed, apdu), agreed), apdu)
    same(presentation.value_of(presentation.user_data(agreed.rtse, apdu), agreed.rtse), apdu)


def title():
    process = made.choice((b"", ber.object_identifier("2.6.0.1.7"), ber.element(0x30, octets(40))))
    return acse.Title(process, made.choice((b"", ber.integer(made.getrandbits(30)))))


def associations():
    name, calling, called, context = "2.6.0.1.6", title(), title(), made.randint(1, 255)
    apdu = octets(length()) or b"\0"
    same(acse.read_request(acse.request(name, called, calling, context, apdu), context),
         acse.Request(name, calling, called, apdu))
    result = made.randint(0, 2)
    same(acse.read_response(acse.response(name, result, called, context, apdu), context),
         acse.Response(name, result, called, apdu))
    same(acse.read_abort(acse.abort(context, apdu), context), apdu)


def opening(is_request):
    mode = made.randint(0, 1) if is_request else 0
    bind = rtse.Bind(made.choice((b"GOLD-1", octets(32, 1))), octets(62))
    bind = made.choice((bind, rtse.Bind()))
    recovered = made.choice((None, reference()))
    return rtse.Opening(made.getrandbits(made.randint(0, 31)), made.getrandbits(made.randint(1, 31)), mode,
                        None if recovered else bind, recovered)


def transfers():
    kinds = (rtse.REQUEST, rtse.ARGUMENT, rtse.request), (rtse.ACCEPTED, rtse.RESULT, rtse.accepted)
    for tag, around, write in kinds:
        for wanted in (around, None):
            asked = opening(tag == rtse.REQUEST)
            same(rtse.opening_of(write(asked, wanted), tag, around), asked)
    reason = made.randint(0, 7)
    same(rtse.abort_reason(rtse.aborted(reason)), reason)
    same(rtse.refusal_of(rtse.refused(reason, False)), reason)
    same(rtse.refusal_of(rtse.refused(reason, True)), reason)
    same(rtse.refusal_of(rtse.plain_refusal(reason)), reason)
    message = ber.element(0xA0, octets(length()))
    cut, context = made.randint(8, 3000), made.randint(1, 255)
    head, tail = rtse.wrapper(message[:cut], context)
    same(rtse.unwrapped(head + message + tail, context), (message, 0))
    same(ber.extent(head + message)[2], len(head + message))
    indefinite = b"\x28\x80" + ber.integer(context) + b"\xA0\x80" + message
    same(rtse.unwrapped(indefinite, context), (message, 4))
    same(rtse.message_size(message), len(message))


def primitives():
    """Primitives through all layers."""
    mode, far = NormalMode(), NormalMode()
    address = Address(b"", octets(16), octets(16), title())
    other, asked, named = Address(b"", octets(16), octets(16), title()), opening(True), reference()
    got = far.read(mode.connect(named, other, address, asked))[0][1]
    same(got, (named, address, other, "2.6.0.1.6", asked))
    answer = opening(False)
    same(mode.read(far.accept(named, other, answer))[0][1:], (answer, other.title))
    reason, piece = made.randint(0, 7), octets(length())
    same(mode.read(far.abort(reason)), [("abort", reason)])
    same(mode.read(far.refuse(reason, made.choice((True, False)))), [("refuse", reason)])
    same(far.read(mode.data(piece)), [("data", piece)])
    point, name, old = made.randint(0, 999_999), identifier(), identifier()
    same(far.read(mode.resume(name, old, point, named)), [("resume", name, old, point, named)])
    same(far.read(mode.please(0)) + far.read(mode.release()) + far.read(mode.release_answer()),
         [("please",), ("release",), ("release_answer",)])
    same([far.read(mode.bare(it)) for it in ("give", "give_ack", "discard_ack")],
         [[("give",)], [("give_ack",)], [("discard_ack",)]])


def lane_units():
    kind = made.choice(list(units.NUMBERS))
    numbers = [made.getrandbits(32) for _ in range(units.NUMBERS[kind])]
    reader, wanted = units.Reader(), []
    octets_of = units.unit(kind, *numbers) + units.unit(units.DATA, body=octets(length()))
    cut = made.randint(0, len(octets_of))
    wanted = reader.received(octets_of[:cut]) + reader.received(octets_of[cut:])
    same(units.numbers_of(*wanted[0]), numbers)
    named = session.Reference(octets(40), b"261202040154Z", made.choice((None, octets(40))))
    rtorq = rtse.request(opening(True))
    body = units.open_unit(b"GOLD-1", named, rtorq)[units.HEADER:]
    same(units.read_open(body), (b"GOLD-1", named, rtorq))


LAYERS = (elements, transport, sessions, presentations, associations, transfers, primitives, lane_units)


def main(count="10000", seed="1"):
    made.seed(int(seed))
    for layer in LAYERS:
        for _ in range(int(count)):
            layer()
        print(f"{layer.__name__}: {count} values are read as they were written")


if __name__ == "__main__":
    main(*sys.argv[1:])
