"""What tshark, which shares nothing with the bridge, reads in connections without breaks: no malformed frame, and each
PDU by its name. captures.py MTA FOLDER [READER]: the recorded connections stay in FOLDER; READER is a second reader."""
import subprocess
import sys
import time
from pathlib import Path

from world import World

HERE = Path(__file__).parent
FOREIGN = [sys.executable, HERE / "foreign.py"]
WRONG = "_ws.malformed or _ws.expert.severity >= 6291456"       # errors; and below them there are only warnings
NAMED = ["CR TPDU", "CC TPDU", "Bind-Argument GOLD-1 simple", "Bind-Result SILVER-1 simple", "ACTIVITY START (AS)",
         "MINOR SYNC POINT (MIP)", "MINOR SYNC ACK (MIA)", "InterPersonal", "MAJOR SYNC ACK (MAA)",
         "Turn-Please (0)", "GIVE TOKENS CONFIRM (GTC)", "GIVE TOKENS ACK (GTA)", "Transfer delivery report",
         "Release-Request (normal)", "Release-Response (normal)"]
# fields in all details, of which each has to be there
DETAILS = ["id-as-acse", "id-as-mta-rtse", "id-as-mtse", "id-ac-mts-transfer", "mode-value: normal-mode",
           "checkpointSize: 5", "dialogueMode: twa", "indirect-reference: 5", "message-submission"]


def shark(capture, *words):
    run = subprocess.run(["tshark", "-r", capture, *words], check=True, stdout=subprocess.PIPE,
                         stderr=subprocess.DEVNULL)
    return run.stdout.decode(errors="replace")


def sessions(mta, folder, size, length, ways):
    """Two agents exchange a message and its report. The traces of their connections."""
    world = World(mta, folder, size=size, traced=True, ways=ways)
    try:
        contents = [b"x" * length]
        world.hand_over("gold", contents)
        world.start_agent("silver")
        world.start_bridges()
        for _ in range(4):
            world.call("gold")
            time.sleep(1)
        world.stop()
        world.check({"gold": contents})
    finally:
        world.stop()
    return sorted((folder / "gold").glob("trace-*.txt"))


def capture_of(trace):
    capture = trace.with_suffix(".pcap")
    subprocess.run(["text2pcap", "-q", "-D", "-T", "40000,102", trace, capture], check=True,
                   stdout=subprocess.DEVNULL, stderr=subprocess.DEVNULL)
    return capture


def looked_at(traces):
    """The frames of captures, how many are wrong, and which names are not among what they show."""
    frames, wrong, text, details = 0, 0, "", ""
    for trace in traces:
        capture = capture_of(trace)
        shown = shark(capture)
        frames += len(shown.splitlines())
        wrong += len(shark(capture, "-Y", WRONG).splitlines())
        text += shown
        details += shark(capture, "-V")
    # what shares a packet with another PDU stands in the details alone
    return frames, wrong, [it for it in NAMED if it not in text and it not in details], details


def main(mta, folder, *reader):
    folder, failed = Path(folder), False
    foreign = {"out": FOREIGN, "in": FOREIGN}
    cases = {"pieces": (4, 20_000, {}), "whole": (0, 5000, {}), "indefinite": (4, 20_000, foreign)}
    for name, (size, length, ways) in cases.items():
        traces = sessions(mta, folder / name, size, length, ways)
        frames, wrong, missing, details = looked_at(traces)
        if name == "whole":                       # one piece has no checkpoint
            missing = [it for it in missing if "MINOR" not in it]
        else:
            missing += [it for it in DETAILS[:-1] if it not in details]
        print(f"{name}: {len(traces)} connections, {frames} frames, {wrong} malformed; "
              f"not shown: {missing or 'nothing'}", flush=True)
        failed = failed or wrong or missing
        for trace in traces if reader else []:
            run = subprocess.run([sys.executable, *reader, trace], stdout=subprocess.PIPE, check=False)
            print(f"  {trace.name}: {run.stdout.decode().splitlines()[-1]}")
            failed = failed or run.returncode
    sys.exit(1 if failed else 0)


if __name__ == "__main__":
    main(*sys.argv[1:])
