#!/usr/bin/env python3
"""Programs of which an allocation is refused: memory.py MTA ROWS LIBRARY FOLDER MOST, or memory.py --try N ..

LIBRARY is checks/memory.c, to be preloaded. MOST is how many allocations of each are refused, spread over all there
are. ROWS is the program mta_run_rows. With `--try` its Nth allocation is refused by the toolchain.
"""
import os
import re
import shutil
import subprocess
import sys
import time

import apdu
from agent import Agent, message
from disks import spread
from pairs import Wrong
from real import OURS, TABLES, THEIRS

FOLDER = os.path.join(os.path.dirname(os.path.abspath(__file__)), "..", "..", "crates", "mta_run_rows")
SECTION = "faults"
SHORT = ("a writer", "units", "a spool", "a message is submitted where memory may be refused",
         "a peer calls where memory may be refused")  # the cases in which memory may be refused
NO_MEMORY = 7  # a status of `mta`
FAULT = 4  # a status of `rt try`: the program did what it may not
MOST_CALLS = 1 << 22


def named(names, rows):
    """The rows of the names that these rows need, each behind those that it needs itself."""
    found = {}
    for row in rows:
        for word in re.split("[ \t]", row):
            if word in names and word not in found:
                row = names[word]
                found |= {**named(names, [row.split("\t")[2]]), word: row}
    return found


def rows():
    """The rows of those cases, and those before them that hand something in."""
    names, others = {}, {}
    with open(f"{FOLDER}/stdin", encoding="utf-8") as file:
        lines = file.read().split(f"section\t{SECTION}\n")[1].split("section\t")[0].splitlines()
    first = lines.index(f"case\t{SHORT[0]}")
    asked = lines[first:]
    if [row[5:] for row in asked if row.startswith("case\t")] != list(SHORT):
        raise Wrong(f"the last cases in {FOLDER}/stdin are others")
    for row in lines[:first]:
        word = row.split("\t")[0]
        if word == "name":
            names[row.split("\t")[1]] = row
        elif word in ("tables", "input", "clock"):
            others[word] = row
    asked = [*others.values(), *asked]
    return "\n".join([f"section\t{SECTION}", *named(names, asked).values(), *asked]) + "\n"


def are_ok(said):
    """Whether each row that was answered was answered as wanted."""
    return all(line == SECTION or line.endswith(": ok") for line in said.splitlines())


class Refusals:
    """A program, and what is to hold of it where an allocation is refused."""

    def __init__(self, library, folder, most):
        self.library, self.folder, self.most, self.runs = library, folder, most, 0

    def run(self, words, given, call, cwd=None):
        """Runs it with this allocation refused, and says whether the allocation came."""
        self.runs += 1
        told = f"{self.folder}/told"
        if os.path.exists(told):
            os.remove(told)
        env = {**os.environ, "LD_PRELOAD": self.library, "FAULT_CALL": str(call), "FAULT_TOLD": told}
        did = subprocess.run(words, input=given, capture_output=True, env=env, cwd=cwd, check=False)
        if did.returncode < 0:
            raise Wrong(f"allocation {call} of {words}: signal {-did.returncode}, {did.stderr.decode()[-500:]}")
        return did.returncode, did.stdout.decode(), os.path.exists(told)

    def count(self, came):
        """How many allocations there are: the last number that comes."""
        low, high = 0, MOST_CALLS
        while low < high:
            middle = (low + high + 1) // 2
            low, high = (middle, high) if came(middle) else (low, middle - 1)
        if low in (0, MOST_CALLS):
            raise Wrong(f"{low} allocations came: the library does not stand in their way")
        return low

    def asks(self, program):
        given = rows().encode()
        count = self.count(lambda call: self.run([program], given, call)[2])
        for call in spread(self.most, count):
            status, said, _ = self.run([program], given, call)
            lines = said.splitlines()
            if not are_ok(said) or status == 0 and len(lines) != 1 + len(SHORT):
                raise Wrong(f"allocation {call} of the rows: status {status}, {said}")
        return count

    def submits(self, mta):
        given, made = message(OURS, THEIRS, "A00001", apdu.content_of(2)), f"{self.folder}/agent"

        def submitted(call):
            shutil.rmtree(made, ignore_errors=True)
            agent = Agent(mta, made, TABLES.format(mode="twa"))
            return agent, self.run([mta, "submit"], given, call, made)

        count = self.count(lambda call: submitted(call)[1][2])
        for call in spread(self.most, count):
            agent, (status, said, _) = submitted(call)
            if status not in (0, NO_MEMORY) or status == NO_MEMORY and not said.endswith("out of memory\n"):
                raise Wrong(f"allocation {call} of mta submit: status {status}, {said}")
            found = re.findall(r"^item (\d+) ", agent.run("spool"), re.M)
            if found not in ([], ["1"]) or "accepted 1" in said and not found:
                raise Wrong(f"allocation {call} of mta submit: {said}, and then the items {found}")
            agent.submit(message(OURS, THEIRS, "A00002", apdu.content_of(2)))
        return count


def tries(numbers):
    """Refuses these allocations of the rows by the toolchain's form."""
    for number in numbers:
        words = ["rt", "try", "--fail-alloc", number]
        did = subprocess.run(words, cwd=FOLDER, input=rows(), capture_output=True, text=True, check=False)
        told = did.stdout + did.stderr
        if did.returncode == FAULT or " in place of " in told:
            raise Wrong(f"allocation {number}: {told[-2000:]}")
        print(f"allocation {number} of the rows is refused: what is answered is right", flush=True)


def main():
    if sys.argv[1] == "--try":
        return tries(sys.argv[2:])
    mta, program, library, folder, most = sys.argv[1:]
    start, refusals = time.monotonic(), Refusals(library, folder, int(most))
    of_mta = refusals.submits(mta)
    print("mta submit with an allocation refused: status 7 or success, what was acknowledged is kept, and it goes on",
          flush=True)
    of_rows = refusals.asks(program)
    print("rows with an allocation refused: answered as without, or there is no memory to ask them", flush=True)
    print(f"figures: {of_mta} allocations of mta submit, {of_rows} of the rows, {refusals.runs} runs, "
          f"{time.monotonic() - start:.0f} s", flush=True)
    return None


if __name__ == "__main__":
    try:
        main()
    except Wrong as why:
        sys.exit(f"{why}")
