"""Messages between two agents over OSI whose connections break at random octets, while bridges and agents are killed
and started again: each arrives once.

    kills.py MTA FOLDER MESSAGES BREAKS KILLS [SEED [SECONDS [WORDS..]]]

Both agents call, over two bridges each, and send so many messages in all, each with a report back. WORDS: whole (one
piece), indefinite (senders that put the EXTERNAL in an indefinite length and segments), references (each session
connection with a reference of its own)."""
import random
import sys
import time

from world import NAMES, TOP, World

LONGEST = 30_000
BETWEEN = 0.15           # seconds between two looks
LINES = {"references": "references connection\n", "older": "application-context mts-transfer-protocol\n"}
FOREIGN = [sys.executable, TOP / "checks" / "osi" / "foreign.py"]


def submitted(world, count, is_done):
    """Hands over the messages of both sides, where this is not done. Their contents by side."""
    sent = {}
    for side in NAMES:
        sent[side] = [world.random.randbytes(world.random.randint(1, LONGEST)) for _ in range(count // 2)]
        if not is_done:
            world.hand_over(side, sent[side])
    return sent


def disturb(world, breaks, kills, until):
    """Breaks connections and kills processes until so many were broken and killed."""
    bridges = [f"{way}-{caller}" for way in ("out", "in") for caller in NAMES]
    names = [*NAMES, *bridges, *bridges]
    said = time.monotonic()
    while time.monotonic() < until:
        time.sleep(BETWEEN)
        broken = sum(tap.broken for tap in world.taps.values())
        # as many kills to a break as there are to be in all
        while world.kills < kills and world.kills * breaks <= broken * kills:
            world.restart(world.random.choice(names))
            world.kills += 1
        if broken >= breaks and world.kills >= kills:
            return
        if time.monotonic() - said > 30:
            said = time.monotonic()
            print(f"{broken} breaks, {world.kills} kills", flush=True)
    raise AssertionError("the breaks and kills were not done in time")


def drained(world, until):
    """Waits until nothing is pending at either side, neither messages nor reports."""
    said, quiet = 0, 0
    while quiet < 2:
        assert time.monotonic() < until, "messages are still pending"
        time.sleep(3)
        left = {side: world.waiting(side) for side in NAMES}
        quiet = 0 if any(left.values()) else quiet + 1
        if time.monotonic() - said > 30:
            said = time.monotonic()
            print(f"pending: {left}", flush=True)


def main(mta, folder, messages, breaks, kills, seed="1", seconds="3600", *words):
    messages, breaks, kills, seed = map(int, (messages, breaks, kills, seed))
    random.seed(seed)
    ways = {"out": FOREIGN, "in": FOREIGN} if "indefinite" in words else {}
    extra = "".join(line for word, line in LINES.items() if word in words)
    world = World(mta, folder, callers=tuple(NAMES), size=0 if "whole" in words else 3, seed=seed, ways=ways,
                  extra=extra)
    until = time.monotonic() + int(seconds)
    try:
        sent = submitted(world, messages, "finish" in words)
        print(f"{messages} messages are submitted", flush=True)
        for tap in world.taps.values():
            # some of them so early that no transfer comes before, so that all come even if nothing is left to send
            tap.wanted = 0 if "finish" in words else breaks // 2 + breaks % 2
            tap.most = max(2000, messages * LONGEST // 2 // max(1, breaks))
        world.start_bridges()
        for side in NAMES:
            world.start_agent(side)
        if "finish" not in words:
            disturb(world, breaks, kills, until)
        drained(world, until)
        world.stop()
        lines = world.check(sent)
        broken = sum(tap.broken for tap in world.taps.values())
        count = sum(len(tap.connections) for tap in world.taps.values())
        print(f"{messages} messages over {count} connections, {broken} of them broken, {world.kills} kills: each once, "
              f"and {len(lines)} half lanes agree")
    finally:
        world.stop()


if __name__ == "__main__":
    main(*sys.argv[1:])
