#!/usr/bin/env bash
# Processes of `mta submit` that are stopped with SIGKILL at random moments, the spool opened again after each stop:
# each number that was printed has to be in the queue, no stop adds more than one item, and no item goes. Then
# processes side by side, which have to get different numbers, all of them in the queue. Run it at the top of the
# repository; `checks/processes.sh N` makes N stops.
set -u
cd "$(dirname "$0")/.." || exit 2
. checks/program.bash
program python3
message=$PWD/samples/message.ber
cp samples/mta.tables "$made/mta.tables"
cd "$made" || exit 2
python3 - "$mta" "$message" "${1:-200}" <<'PYTHON'
import random, re, subprocess, sys, time
mta, message, stops = sys.argv[1], sys.argv[2], int(sys.argv[3])

def items():
    queue = subprocess.run([mta, "spool"], stdin=subprocess.DEVNULL, capture_output=True, text=True)
    if queue.returncode != 0:
        sys.exit(f"spool ended with {queue.returncode}: {queue.stdout}")
    return [int(n) for n in re.findall(r"^item (\d+) ", queue.stdout, re.M)]

def begun():
    with open(message, "rb") as octets:
        return subprocess.Popen([mta, "submit"], stdin=octets, stdout=subprocess.PIPE)

def number(running):
    told = re.fullmatch(rb"accepted (\d+)\n", running.communicate()[0])
    return int(told[1]) if told else None

def stopped(seconds):
    running = begun()
    time.sleep(seconds)
    running.kill()
    return number(running)

start = time.monotonic()
number(begun())
whole = time.monotonic() - start
before, acknowledged = items(), 0
for _ in range(stops):
    told = stopped(random.uniform(0, 1.5 * whole))
    now = items()
    if now != list(range(1, len(now) + 1)) or not len(before) <= len(now) <= len(before) + 1:
        sys.exit(f"before the stop {len(before)} items, and behind it {now}")
    if told is not None:
        acknowledged += 1
        if told not in now:
            sys.exit(f"{told} was accepted and is not in the queue")
    before = now
print(f"{stops} stops: {acknowledged} items were acknowledged, and all of them are kept")

together = [begun() for _ in range(40)]
told = sorted(number(running) for running in together)
if told != list(range(len(before) + 1, len(before) + 41)) or len(items()) != len(before) + 40:
    sys.exit(f"side by side: {told}")
print("40 side by side: 40 numbers, 40 items")
PYTHON
