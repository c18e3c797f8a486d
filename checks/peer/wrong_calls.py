"""The wrong units of an initiator."""
import units
from units import (CANNOT_RECOVER, COMPLETED, NOT_VALID, TEMPORARY, TOO_LONG, TWO_WAY, UNRECOGNIZED, WRONG_MODE, Abort,
                   Bind, Close, Data, Discard, DiscardAck, End, EndAck, Fault, Give, Nothing, Recover, Reject, Resume,
                   Start, Sync, SyncAck)
from wrong_rows import KIND, LENGTH, WRONG, kind, row

row("call", "exception", WRONG, Fault(1, 0))
row("call", "data-first", WRONG, Data(b"x"))
row("call", "sync-first", WRONG, Sync(1))
row("call", "end-first", WRONG, End(1))
row("call", "end-of-nothing", WRONG, Start(1), End(1))
row("call", "start-zero", WRONG, Start(0))
row("call", "start-again", WRONG, Start(1), Start(1))
row("call", "start-within", WRONG, Start(1), Data(b"x"), Start(2))
row("call", "empty-piece", WRONG, Start(1), Data(b""))
row("call", "two-pieces", WRONG, Start(1), Data(b"x"), Data(b"x"))
row("call", "sync-ahead", WRONG, Start(1), Data(b"x"), Sync(2))
row("call", "end-other", WRONG, Start(1), Data(b"x"), End(2))
row("call", "resume-within", WRONG, Start(1), Resume(1, 1))
row("call", "resume-unknown", Abort(UNRECOGNIZED), Resume(9, 1))
row("call", "discard-other", WRONG, Start(1), Discard(2))
row("call", "discard-unknown", DiscardAck(9), Discard(9))
row("call", "close-within", WRONG, Start(1), Close())
row("call", "give-within", WRONG, Start(1), Give(), needs="twa")
row("call", "no-message", Fault, Start(1), Data(b"\x30\x00"), End(1))


@kind("call", "open-again")
def open_again(hands):
    hands.put(hands.opened())
    return WRONG


@kind("call", "length-first")
def length_first(hands):
    hands.connect()
    hands.put(LENGTH)
    return WRONG


@kind("call", "kind-first")
def kind_first(hands):
    hands.connect()
    hands.put(KIND)
    return WRONG


@kind("call", "body-first")
def body_first(hands):
    hands.connect()
    hands.put(units.frame(1, b"\x16\x01A"))
    return WRONG


@kind("call", "start-first")
def start_first(hands):
    hands.connect()
    hands.put(Start(1))
    return WRONG


def asked(hands, wanted, **changed):
    hands.connect()
    hands.put(hands.request()._replace(**changed))
    return wanted


@kind("call", "null")
def null(hands):
    return asked(hands, Reject(NOT_VALID), data=Nothing())


@kind("call", "unknown-name")
def unknown_name(hands):
    return asked(hands, Reject(NOT_VALID), name=b"nobody")


@kind("call", "other-name")
def other_name(hands):
    return asked(hands, Reject(NOT_VALID), data=Bind(b"nobody", hands.values.password))


@kind("call", "password")
def password(hands):
    return asked(hands, Reject(NOT_VALID), data=Bind(hands.values.own, hands.values.password + b"x"))


@kind("call", "mode", "monologue")
def mode(hands):
    return asked(hands, Reject(WRONG_MODE), mode=TWO_WAY)


@kind("call", "unknown-lane")
def unknown_lane(hands):
    return asked(hands, Reject(CANNOT_RECOVER), data=Recover(hands.reference("no lane")))


@kind("call", "reference-again")
def reference_again(hands):
    first = hands.opened()
    hands.drop()
    hands.connect()
    hands.put(first)
    return Reject(NOT_VALID)


@kind("call", "long-piece")
def long_piece(hands):
    hands.opened()
    hands.put(Start(1), Data(bytes((hands.size or units.LONGEST_PIECE) + 1)))
    return WRONG


def whole(hands, activity):
    """Sends a good message of one piece as this activity."""
    hands.put(Start(activity), Data(hands.message()), End(activity))


def completed(hands):
    """Sends activity 1, and reads until it is acknowledged."""
    hands.opened()
    whole(hands, 1)
    hands.until(EndAck)


@kind("call", "start-done")
def start_done(hands):
    completed(hands)
    hands.put(Start(1))
    return WRONG


@kind("call", "end-twice")
def end_twice(hands):
    completed(hands)
    hands.put(End(1))
    return WRONG


@kind("call", "discard-done")
def discard_done(hands):
    completed(hands)
    hands.put(Discard(1))
    return Abort(COMPLETED)


@kind("call", "resume-done")
def resume_done(hands):
    """What is done is confirmed again, and does not come twice."""
    completed(hands)
    hands.put(Resume(1, 1), Data(b"x"), End(1))
    return EndAck(1)


@kind("call", "resume-ahead")
def resume_ahead(hands):
    partial(hands)
    hands.put(Resume(1, 2))
    return WRONG


@kind("call", "resume-zero")
def resume_zero(hands):
    partial(hands)
    hands.put(Resume(1, 0))
    return WRONG


@kind("call", "start-behind")
def start_behind(hands):
    """Another activity, while one stands in part."""
    partial(hands)
    hands.put(Start(2))
    return WRONG


def partial(hands):
    """Makes piece 1 of activity 1 stand, breaks, and recovers the lane."""
    hands.opened()
    hands.put(Start(1), Data(b"x"), Sync(1))
    hands.until(SyncAck)
    hands.drop()
    hands.recovered()


@kind("call", "behind-exception")
def behind_exception(hands):
    """What still comes of an activity that was answered by Exception passes, and the next one is taken."""
    hands.opened()
    hands.put(Start(1), Data(b"\x30\x00"), End(1), Data(b""), Sync(7), End(1), Discard(1))
    hands.until(Fault)
    whole(hands, 2)
    return EndAck(2)


@kind("call", "overtaken", "stations")
def overtaken(hands):
    """A link whose End comes once another link has recovered the lane: nothing is completed there."""
    hands.opened()
    hands.put(Start(1), Data(hands.message()))
    first = hands.link
    hands.recovered()
    hands.put(Discard(1))
    hands.until(DiscardAck)
    hands.drop()
    hands.link = first
    hands.put(End(1))
    if hands.until(Abort) != WRONG:
        return WRONG
    hands.drop()
    hands.recovered()
    hands.put(Discard(1))
    return DiscardAck(1)


@kind("call", "too-long")
def too_long(hands):
    """An activity of 2,097,153 octets: found once its octets pass 2,097,152."""
    hands.opened()
    size = hands.size or 2**20
    hands.put(Start(1))
    count = 2**21 // size
    for number in range(1, count + 1):
        hands.put(Data(bytes(size)), Sync(number))
        hands.until(SyncAck)
    hands.put(Data(b"x"), End(1))
    return Fault(TOO_LONG, 2**21)


@kind("call", "units")
def too_many(hands):
    """Units that are allowed, until one is too many."""
    hands.opened()
    for _ in range(hands.values.limit - 2):
        hands.put(Discard(9))
        hands.until(DiscardAck)
    hands.put(Discard(9))
    return Abort(TEMPORARY)
