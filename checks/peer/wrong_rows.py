"""The wrong units that are no more than units put at their wrong place, and where all kinds of them are kept."""
import units
from units import (PROTOCOL, Abort, Accept, Bind, CloseAck, DiscardAck, EndAck, Give, Please, Reject, ResumeAck, Start,
                   SyncAck)

WRONG = Abort(PROTOCOL)
LENGTH = (2**21 + 6).to_bytes(4, "big") + bytes((5,))
KIND = units.frame(20, b"")
BODY = units.frame(5, b"\x05\x00")
ROWS = {}


def kind(command, name, needs=None):
    def added(does):
        ROWS[command, name] = needs, does
        return does
    return added


def row(command, name, wanted, *puts, needs=None):
    """A kind that puts these units on an association that is open: a responder's once Start came."""
    def does(hands):
        hands.opened()
        if command == "listen":
            hands.until(Start)
        hands.put(*puts)
        return wanted
    ROWS[command, name] = needs, does


for of in ("call", "listen"):
    row(of, "length", WRONG, LENGTH)
    row(of, "kind", WRONG, KIND)
    row(of, "body", WRONG, BODY)
    row(of, "sync-ack", WRONG, SyncAck(1000))
    row(of, "sync-ack-zero", WRONG, SyncAck(0))
    row(of, "end-ack", WRONG, EndAck(1))
    row(of, "resume-ack", WRONG, ResumeAck(1, 1))
    row(of, "discard-ack", WRONG, DiscardAck(1))
    row(of, "accept", WRONG, Accept(0, 1, Bind(b"x", b"")))
    row(of, "reject", WRONG, Reject(0))
    row(of, "close-ack", WRONG, CloseAck())
    row(of, "please", WRONG, Please(0), needs="monologue")
    row(of, "give", WRONG, Give(), needs="monologue")
