"""The wrong units of a responder."""
from units import (NOT_VALID, PARAMETER, PERMANENT, TEMPORARY, Abort, Bind, Close, Data, Discard, DiscardAck, End,
                   EndAck, Give, Nothing, Please, Recover, Reject, Resume, Start, Sync, SyncAck)
from wrong_rows import BODY, KIND, LENGTH, ROWS, WRONG, kind, row

row("listen", "start", WRONG, Start(1))
row("listen", "data", WRONG, Data(b"x"))
row("listen", "end", WRONG, End(1))
row("listen", "close", WRONG, Close())
row("listen", "give-twice", WRONG, Give(), needs="twa")


def answered(command, name, wanted, change, needs=None):
    """A kind of a responder that answers an Open wrongly: `change` gives what is put for the Open that came."""
    def does(hands):
        hands.put(change(hands, hands.came()))
        return wanted
    ROWS[command, name] = needs, does


answered("listen", "length-first", WRONG, lambda hands, it: LENGTH)
answered("listen", "kind-first", WRONG, lambda hands, it: KIND)
answered("listen", "body-first", WRONG, lambda hands, it: BODY)
answered("listen", "start-first", WRONG, lambda hands, it: Start(1))
answered("listen", "open-first", WRONG, lambda hands, it: it)
answered("listen", "please-first", WRONG, lambda hands, it: Please(0))
answered("listen", "rejected", None, lambda hands, it: Reject(NOT_VALID))
answered("listen", "accept-null", WRONG, lambda hands, it: hands.accept(it, data=Nothing()))
answered("listen", "accept-recover", WRONG, lambda hands, it: hands.accept(it, data=Recover(it.reference)))
answered("listen", "accept-name", Abort(PERMANENT),
         lambda hands, it: hands.accept(it, data=Bind(b"nobody", hands.values.password)))
answered("listen", "accept-password", Abort(PERMANENT),
         lambda hands, it: hands.accept(it, data=Bind(hands.values.own, hands.values.password + b"x")))
answered("listen", "accept-checkpoint", Abort(PARAMETER),
         lambda hands, it: hands.accept(it, checkpoint=it.checkpoint + 1))
answered("listen", "accept-window", Abort(PARAMETER), lambda hands, it: hands.accept(it, window=it.window + 1))
answered("listen", "accept-no-window", Abort(PARAMETER), lambda hands, it: hands.accept(it, window=0))


@kind("listen", "end-ack-other")
def end_ack_other(hands):
    hands.opened()
    end = hands.confirmed()
    hands.put(EndAck(end.activity + 1))
    return WRONG


@kind("listen", "window", "pieces")
def window_kept(hands):
    """Nothing is put while the window is used up: what comes next answers the wrong unit."""
    accept = hands.opened()
    while hands.until(Sync).number < accept.window:
        pass
    hands.put(EndAck(2**32 - 1))
    hands.strict = True
    return WRONG


@kind("listen", "end-awaited", "pieces")
def end_awaited(hands):
    """Nothing is put behind End before its answer."""
    hands.opened()
    end = hands.confirmed()
    hands.put(DiscardAck(end.activity))
    hands.strict = True
    return WRONG


@kind("listen", "sync-ack-again", "pieces")
def sync_ack_again(hands):
    hands.opened()
    hands.until(Sync)
    hands.put(SyncAck(1), SyncAck(1))
    return WRONG


@kind("listen", "units", "twa")
def too_many_pleases(hands):
    hands.opened()
    hands.put(*[Please(0)] * (hands.values.limit - 1))
    return Abort(TEMPORARY)


def again(hands):
    """Breaks an association while an activity is under way, and takes the Open that recovers it."""
    first = hands.opened()
    hands.until(Start)
    hands.drop()
    return first, hands.came(recovering=True)


@kind("listen", "goes-on", "pieces")
def goes_on(hands):
    """No wrong unit: behind a break with a piece confirmed the first unit is Resume behind that piece."""
    first = hands.opened()
    activity = hands.until(Start).activity
    hands.until(Sync)
    hands.put(SyncAck(1))
    hands.drop()
    return recovered_first(hands, first, Resume(activity, 1))


@kind("listen", "begins-anew")
def begins_anew(hands):
    """No wrong unit: behind a break with nothing confirmed the first unit is Discard."""
    first = hands.opened()
    activity = hands.until(Start).activity
    hands.drop()
    return recovered_first(hands, first, Discard(activity))


def recovered_first(hands, first, wanted):
    """Takes the Open that recovers this lane; the next unit has to be the one that is wanted."""
    it = hands.came(recovering=True)
    hands.put(first._replace(data=it.data))
    hands.strict = True
    return wanted


@kind("listen", "recover-values")
def recover_values(hands):
    first, it = again(hands)
    hands.put(hands.accept(it, checkpoint=first.checkpoint, window=first.window + 1, data=it.data))
    return Abort(PARAMETER)


@kind("listen", "recover-reference")
def recover_reference(hands):
    first, it = again(hands)
    hands.put(hands.accept(it, data=Recover(hands.reference("other"))))
    return WRONG


@kind("listen", "recover-bind")
def recover_bind(hands):
    first, it = again(hands)
    hands.put(hands.accept(it))
    return WRONG
