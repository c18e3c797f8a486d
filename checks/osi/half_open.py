"""An old connection that stands half-open while the lane goes on, and delivers what lay in it later: half_open.py MTA
FOLDER. Each message arrives once, and no newer connection of the lane opens while the old one may still be read."""
import sys
import threading
import time
from pathlib import Path

from world import World

LENGTH = 2000
# octets behind which a connection stalls: in the message, and around the end of the activity
PLACES = (1500, 2610, 2640, 2680)
UNSEEN = 6                 # seconds that a lane is blocked once the end was not seen
PATIENCE = 10              # seconds for which the bridge waits for the end
SLACK = 1.5                # seconds by which the clocks of this test may be late
WITHIN = 240


def stalled(tap):
    """The first connection that stalls."""
    for _ in range(1800):
        found = [it for it in tap.connections if not it.stalled.is_set()]
        if found:
            return found[0]
        time.sleep(0.1)
    raise AssertionError("no connection stalled")


def run(mta, folder, killed, place, said):
    """The process `killed` ends while a connection stalls: our agent that sends, or the bridge beside it."""
    world = World(mta, folder, extra="")
    for side in ("gold", "silver"):
        path = world.folder / side / "peer.conf"
        path.write_text(path.read_text().replace("unseen-end 1", f"unseen-end {UNSEEN}"))
    tap = world.taps["gold"]
    tap.stalls, tap.exactly, tap.wanted, tap.most = True, place, 1, place
    try:
        contents = [bytes([48 + place % 10]) * LENGTH]
        world.hand_over("gold", contents)
        world.start_agent("silver")
        world.start_bridges()
        world.start_agent("gold")
        old = stalled(tap)
        count = len(tap.connections)
        world.restart(killed)
        ended = time.monotonic()
        # the old connection delivers what lay in it once the end was waited for in vain
        time.sleep(PATIENCE + UNSEEN / 2)
        early = [it.begun - ended for it in tap.connections[count:]]
        old.stalled.set()
        until = time.monotonic() + WITHIN
        while time.monotonic() < until and len(tap.connections) == count:
            time.sleep(0.2)
        while time.monotonic() < until:
            time.sleep(8)
            for side in ("gold", "silver"):
                world.kill(side)
            if not world.pending("gold") and not world.pending("silver"):
                break
            for side in ("silver", "gold"):
                world.start_agent(side)
        world.stop()
        world.check({"gold": contents})
        later = [round(it.begun - ended, 1) for it in tap.connections[count:]]
        # one beside the killed agent: its bridge has the lane. One beside the killed bridge: the bridge at the far end
        least = PATIENCE + UNSEEN - SLACK if killed == "gold" else UNSEEN - SLACK
        assert not early or min(early) >= least, (early, least)
        said.append(f"{killed} is killed, a connection stalls behind {place} octets: the next one opens after "
                    f"{later[0]} seconds; each once")
    except Exception as why:  # told by the main thread
        said.append(f"FAILED: {killed} at {place}: {why!r}")
    finally:
        world.stop()


def main(mta, folder):
    said, threads = [], []
    for killed in ("gold", "out-gold"):
        for place in PLACES:
            words = mta, Path(folder) / f"{killed}-{place}", killed, place, said
            threads.append(threading.Thread(target=run, args=words))
            threads[-1].start()
    for it in threads:
        it.join()
    print(*sorted(said), sep="\n")
    sys.exit(any(it.startswith("FAILED") for it in said) or len(said) != len(threads))


if __name__ == "__main__":
    main(*sys.argv[1:])
