"""How often an APDU is read, and how many instructions a message of 10 KiB takes at the agent that sends it and at the
one that takes it, as callgrind counts them: of an agent that hands over twelve, less those of one that hands over two,
over ten, so opening and what a process costs count for nothing. Instructions, unlike times, hardly vary. An APDU is
read where its envelope is. With status 1 where one message alone is read more often than is wished.
"""
import re
import subprocess
import sys

import tools

SIZE = 10_240
MOST = {"a message that is submitted for a mailbox": 3, "one that is relayed, at the agent that sends it": 4,
        "one that came, at the agent that takes it": 2}
LINE = "monologue 16 3"
SENDER = f"domain C=GB;A=GOLD\nname GOLD-0\npeer ACME-1 ours theirs {LINE}\nroute C=GB;A=ACME peer ACME-1\n"
TAKER = ("domain C=GB;A=ACME\nname ACME-1\n"
         f"peer GOLD-0 theirs ours {LINE}\nmailbox watt C=GB;A=ACME;S=WATT\nroute C=GB;A=GOLD peer GOLD-0\n")
READER = "mta_envelope::envelope::Envelope::read"


class Counted:
    """What callgrind counts of a program."""

    def __init__(self, folder):
        self.file, self.log = f"{folder}/counts", f"{folder}/log"

    def words(self, words):
        return ["valgrind", "--tool=callgrind", f"--callgrind-out-file={self.file}", f"--log-file={self.log}", *words]

    def instructions(self):
        with open(self.log, encoding="utf-8") as file:
            return int(re.search(r"Collected : ([0-9]+)", file.read()).group(1))

    def readings(self):
        """How often the envelope of an APDU is read. A name of a function is told once, with its number."""
        numbers, called, count = set(), None, 0
        with open(self.file, encoding="utf-8") as file:
            for line in file:
                found = re.match(r"c?fn=(\(\d+\))(?: (.*))?", line)
                if found and (found.group(2) or "").startswith(READER):
                    numbers.add(found.group(1))
                if line.startswith("cfn="):
                    called = found.group(1)
                elif line.startswith("calls=") and called in numbers:
                    count += int(line[6:].split()[0])
        return count


def handed(folder, many, counted, of_sender):
    """What is counted of the agent that sends so many, or of the one that takes them."""
    tools.fresh(folder)
    tools.write_spool(f"{folder}/from", SENDER.encode(), many, tools.message(SIZE, b"ACME"))
    tools.write_spool(f"{folder}/to", TAKER.encode(), 0, b"")
    port = tools.free_port()
    takes = [tools.MTA, "serve", "1", f"in:{port}"]
    sends = [tools.MTA, "serve", "1", f"out:ACME-1:127.0.0.1:{port}"]
    quiet = {"stdin": subprocess.DEVNULL, "stdout": subprocess.DEVNULL}
    taker = subprocess.Popen(takes if of_sender else counted.words(takes), cwd=f"{folder}/to", **quiet)
    try:
        tools.wait_for_port(port)
        subprocess.run(counted.words(sends) if of_sender else sends, cwd=f"{folder}/from", check=True, **quiet)
        taker.wait(60)
    finally:
        taker.kill()
    return counted.readings(), counted.instructions()


def submitted(folder, counted):
    """How often a message is read that is submitted for a mailbox of the same agent."""
    tools.fresh(folder)
    with open(f"{folder}/mta.tables", "w", encoding="utf-8") as file:
        file.write("domain C=GB;A=ACME\nname ACME-1\nmailbox watt C=GB;A=ACME;S=WATT\n")
    subprocess.run(counted.words([tools.MTA, "submit"]), cwd=folder, input=tools.message(SIZE, b"ACME"),
                   stdout=subprocess.DEVNULL, check=True)
    return counted.readings()


def main():
    tools.needs("valgrind")
    folder, counted = f"{tools.FOLDER}/agents", Counted(tools.FOLDER)
    found = [submitted(folder, counted), handed(folder, 1, counted, True)[0], handed(folder, 1, counted, False)[0]]
    for (what, most), count in zip(MOST.items(), found):
        print(f"{what}: read {count} times (wished: at most {most})", flush=True)
    for what, of_sender in (("sent", True), ("taken", False)):
        few, more = (min(handed(folder, it, counted, of_sender)[1] for _ in range(3)) for it in (2, 12))
        print(f"a message of 10 KiB that is {what}: {(more - few) / 10 / 1e6:.2f} million instructions", flush=True)
    if any(count > most for count, most in zip(found, MOST.values())):
        sys.exit(1)


main()
