#!/usr/bin/env python3
"""Builds a program without proofs: checks/unproved.py FILE [NAME], `mta` where no other is named.

`rt try` compiles a program with run-time checks and no proof, runs it once in a folder of its own, and keeps no
file. While it does, this script links the program that it runs to FILE, and says every quarter of a minute what is
being done. Status 0 where FILE is there and prints the usage line.
"""
import glob
import os
import shutil
import subprocess
import sys
import tempfile
import time

TOP = os.path.dirname(os.path.dirname(os.path.abspath(__file__)))


PAUSE = 15  # seconds between two lines


def crates(name):
    """How many crates the program is made of."""
    with open(f"{TOP}/crates.txt", encoding="utf-8") as file:
        pairs = (line.split(":") for line in file if ":" in line and not line.startswith("#"))
        below = {head.split()[0]: words.split() for head, words in pairs}
    found, left = set(), [name]
    while left:
        crate = left.pop()
        if crate in below and crate not in found:
            found.add(crate)
            left += below[crate]
    return len(found)


def say(name, start, seen):
    """What is being done after so many seconds."""
    doing = "linking and trying it" if seen else f"compiling {crates(name)} crates"
    print(f"  {time.time() - start:.0f} s: {doing}", flush=True)


def linked(name, folder, to):
    """Links each program that appears below the folder while `rt try` runs it; the last one's path."""
    last, seen = None, set()
    start = told = time.time()
    with open(f"{TOP}/samples/message.ber", "rb") as sample, open(f"{to}.log", "wb") as log:
        words = ["rt", "try", "--", "decode"] if name == "mta" else ["rt", "try"]
        how = {"cwd": f"{TOP}/crates/{name}", "env": {**os.environ, "TMPDIR": folder}}
        running = subprocess.Popen(words, stdin=sample, stdout=log, stderr=log, **how)
        while running.poll() is None:
            for path in glob.glob(f"{folder}/*/*/program*"):
                try:
                    node = os.stat(path).st_ino
                    if node not in seen:
                        os.link(path, f"{folder}/linked{len(seen)}")
                        last = f"{folder}/linked{len(seen)}"
                        seen.add(node)
                except OSError:
                    pass  # it went in the meantime
            if time.time() - told > PAUSE:
                told += PAUSE
                say(name, start, seen)
            time.sleep(0.002)
    return last


def main():
    to, name = os.path.abspath(sys.argv[1]), (sys.argv[2:] or ["mta"])[0]
    os.makedirs(os.path.dirname(to), exist_ok=True)
    # beside FILE, since a link does not leave its file system
    with tempfile.TemporaryDirectory(dir=os.path.dirname(to)) as folder:
        made = linked(name, folder, to)
        if made is None:
            sys.exit(f"no program was built; {to}.log says why")
        shutil.copy(made, f"{folder}/{name}")
        os.chmod(f"{folder}/{name}", 0o755)
        said = subprocess.run([f"{folder}/{name}"], cwd=folder, stdin=subprocess.DEVNULL, capture_output=True)
        if said.returncode != 1 or not said.stdout.startswith(f"usage: {name} ".encode()):
            sys.exit(f"the program that was built does not run: {said}")
        os.replace(f"{folder}/{name}", to)


main()
