"""What it would bring to lay a journal's file out ahead of its end: 1,000 appends of 1 KiB as a journal makes them, two
writes with a sync each, by a program in C (layout.c), into a file that grows, into one whose room was taken before
(posix_fallocate), and into one of zeros that were written and synced before. By the clock, the ways take turns, five
times each; the best counts. Words: [APPENDS], 1,000.
"""
import subprocess

import tools


def appends(program, how, many):
    words = [program, f"{tools.FOLDER}/file", str(many), how]
    return lambda: float(subprocess.run(words, capture_output=True, text=True, check=True).stdout)


def main():
    tools.needs("cc")
    many, program = tools.numbers(1000)[0], f"{tools.FOLDER}/layout"
    subprocess.run(["cc", "-O2", "-Wall", "-o", program, f"{tools.HERE}/layout.c"], check=True)
    tools.machine(tools.FOLDER)
    kinds = ("grows", "room", "zeros")
    found = tools.in_turn([appends(program, it, many) for it in kinds], 5)
    print(f"{many} appends of 1 KiB, two synced writes each")
    for kind, (best, spread) in zip(kinds, found):
        print(f"  {kind}: {best:.0f} us each (spread {spread:.2f}); as a multiple of a file that grows "
              f"{best / found[0][0]:.2f}", flush=True)


main()
