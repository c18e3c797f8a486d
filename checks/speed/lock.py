"""Turns a second with the lock, beside the standard library's Mutex in stock Rust (lock.rs). The figures depend on
what else runs, so the two programs take turns, and the best of three runs counts, by the clock. Words: [TURNS], those
of all threads together, 480,000.
"""
import subprocess
import sys
import time

import tools


def took(command, threads, each):
    """The seconds of a run by the clock; its answer is checked."""
    start = time.monotonic()
    said = subprocess.run([*command, str(threads), str(each)], capture_output=True, text=True, check=False).stdout
    end = time.monotonic()
    if said.strip() != f"{threads * each} turns":
        sys.exit(f"{command} said: {said}")
    return end - start


def main():
    tools.needs("rustc")
    turns, stock = tools.numbers(480_000)[0], f"{tools.FOLDER}/stock"
    subprocess.run(["rustc", "-O", "--edition", "2021", "-o", stock, f"{tools.HERE}/lock.rs"], check=True)
    tools.machine()
    print(f"{'threads':>8} {'turns/s':>16} {'Mutex turns/s':>16} {'ratio':>8}")
    for threads in (1, 2, 4, 8, 16):
        each = turns // threads
        ways = [lambda: took([tools.BENCH, "shared"], threads, each), lambda: took([stock], threads, each)]
        ours, theirs = tools.in_turn(ways)
        print(f"{threads:8} {threads * each / ours[0]:16.0f} {threads * each / theirs[0]:16.0f} "
              f"{theirs[0] / ours[0]:8.2f}", flush=True)


main()
