"""One wrong unit, and the answer that docs/PROTOCOL.md names for it.

Each kind is a function of the hands that put units, and gives the answer that is expected. A kind that needs more than
any peer gives says so: `twa` and `monologue` are what the peer takes, `stations` that it takes two links at once,
`pieces` that a message of more pieces than the window is due.
"""
import wrong_calls
import wrong_listens
from hands import Hands
from units import TWO_WAY
from wrong_rows import ROWS

KNOWN = wrong_calls, wrong_listens  # they add their kinds to ROWS


def kinds(command):
    return [name for of, name in ROWS if of == command]


def run(command, name, connections, values, say, stations=1):
    """Runs one kind, or all of them one after another. The status: 0 where each was answered as it has to be."""
    names = kinds(command) if name == "all" else name.split(",")
    wrong = 0
    for one in names:
        if (command, one) not in ROWS:
            raise SystemExit(f"no such kind: {one}")
        needs, does = ROWS[command, one]
        if needs in ("twa", "monologue") and needs != ("twa" if values.mode == TWO_WAY else "monologue"):
            say(f"hostile {one}: left out, it needs {needs}")
            continue
        if needs == "stations" and stations < 2:
            say(f"hostile {one}: left out, it needs a peer that takes two links at once")
            continue
        hands = Hands(command, one, connections, values, say)
        say(f"hostile {one}")
        wrong += not hands.judged(does)
    return 1 if wrong else 0
