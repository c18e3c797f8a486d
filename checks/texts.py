#!/usr/bin/env python3
"""Runs the command blocks of README.md, docs/MANUAL.md, docs/PROTOCOL.md and the pages of man/, and compares what they
print: checks/texts.py MTA MTA_REHEARSE MTA_AUDIT MTA_FOLLOW MTA_STORE, with the programs' paths.

A block marked `console` has commands after `$ `, which go on after `> `, and what they print; the blocks of a document
are run one after the other, beside a folder samples/, with the tools of contrib on the PATH under the names that
contrib/install.sh gives them. A block marked `sh` is run as it stands, but for a line that calls ./demo, beside a
folder samples/; a block marked `text` right after it is what it prints. YYMMDDhhmmssZ stands for any moment, and
YYYY-MM-DDThh:mm:ssZ for one in ISO 8601. A block marked `tables` is a text of tables, which `submit` has to take. A
block of PROTOCOL.md without a mark that calls a program of checks/ has to end with status 0. A literal display of a
page is a console block where it has commands, and else a text of tables. What a page shows of agents in /var/lib, or of
other hosts, is run with the agents of contrib/sample, which have these names, and with this host.
"""
import contextlib
import os
import re
import shutil
import signal
import subprocess
import sys
import tempfile

TOP = os.path.dirname(os.path.dirname(os.path.abspath(__file__)))
MARK = "== next block =="
LONGEST = 300  # seconds that a script may take


def blocks(document):
    with open(f"{TOP}/{document}", encoding="utf-8") as file:
        return re.findall(r"^```(\w*)\n(.*?)^```$", file.read(), re.M | re.S)


def tools(folder):
    """The tools of contrib in a folder, as they are installed."""
    with open(f"{TOP}/contrib/install.sh", encoding="utf-8") as file:
        pairs = re.findall(r"([a-z-]+)=([a-z.-]+)", re.search(r'^tools="(.*?)"', file.read(), re.M | re.S)[1])
    os.makedirs(folder, exist_ok=True)
    for name, file in pairs:
        os.symlink(f"{TOP}/contrib/{file}", f"{folder}/{name}")


def ran(script, folder, mta, **more):
    path = f"{os.path.dirname(mta)}:{BESIDE}:{os.environ['PATH']}"
    how = {"env": {**os.environ, "PATH": path, **more}, "stdin": subprocess.DEVNULL, "start_new_session": True}
    with tempfile.TemporaryFile("w+") as out, tempfile.TemporaryFile("w+") as err:
        it = subprocess.Popen(["bash", "-c", script], cwd=folder, stdout=out, stderr=err, **how)
        try:
            it.wait(LONGEST)
        except subprocess.TimeoutExpired:
            err.write(f"no end within {LONGEST} s\n")
        # what it began ends with it
        with contextlib.suppress(ProcessLookupError):
            os.killpg(it.pid, signal.SIGKILL)
        it.wait()
        out.seek(0)
        err.seek(0)
        return out.read() + err.read()


def differs(document, wanted, got):
    pattern = re.escape(wanted).replace("YYMMDDhhmmssZ", r"\d{12}Z")
    pattern = pattern.replace(re.escape("YYYY-MM-DDThh:mm:ssZ"), r"\d{4}-\d\d-\d\dT\d\d:\d\d:\d\dZ")
    if re.fullmatch(pattern, got):
        return False
    print(f"{document} has\n{wanted}where the program prints\n{got}")
    return True


def split(block):
    """The commands of a console block, and what they print."""
    lines = block.splitlines(keepends=True)
    commands = [it[2:] for it in lines if it.startswith(("$ ", "> "))]
    return "".join(commands), "".join(it for it in lines if not it.startswith(("$ ", "> ")))


def beside_samples(folder):
    shutil.copytree(f"{TOP}/samples", f"{folder}/samples")
    return folder


def consoles(document, mta, made):
    found = [split(block) for kind, block in blocks(document) if kind == "console"]
    script = "".join(f"{commands}echo '{MARK}'\n" for commands, _ in found)
    got = ran(script, beside_samples(f"{made}/console"), mta).split(f"{MARK}\n")
    return sum(differs(document, wanted, said) for (_, wanted), said in zip(found, got)), len(found)


def scripts(document, mta, made):
    """The `sh` blocks. One that installs is followed by a question where the commands are."""
    found, wrong, count = blocks(document), 0, 0
    for at, (kind, script) in enumerate(found):
        if kind != "sh":
            continue
        count += 1
        script = re.sub(r"^\./demo.*$", "", script, flags=re.M)
        folder = beside_samples(f"{made}/script{at}")
        if "contrib/install.sh" in script:
            script = script.replace("contrib/install.sh", f"{TOP}/contrib/install.sh --program {mta}")
            script += f"echo '{MARK}'\ntype -p mta mta-log mta-message\nmta-ipm --help | head -n 1\n"
            got = ran(script, folder, mta, HOME=f"{made}/home{at}").rpartition(f"{MARK}\n")[2]
            place = f"{made}/home{at}/mta/bin"
            wanted = f"{place}/mta\n{place}/mta-log\n{place}/mta-message\nusage: mta-ipm [-h] [--folder FOLDER]\n"
            wrong += differs(document, wanted, got)
            continue
        os.makedirs(f"{folder}/out/unproved")
        shutil.copy(mta, f"{folder}/out/unproved/mta")
        follows = found[at + 1] if at + 1 < len(found) else ("", "")
        wrong += differs(document, follows[1] if follows[0] == "text" else "", ran(script, folder, mta))
    return wrong, count


def tables(document, mta, made):
    found, wrong = [block for kind, block in blocks(document) if kind == "tables"], 0
    for at, text in enumerate(found):
        folder = f"{made}/tables{at}"
        os.mkdir(folder)
        with open(f"{folder}/mta.tables", "w", encoding="utf-8") as file:
            file.write(text)
        wrong += differs(document, "accepted 1\n", ran(f"mta submit < {TOP}/samples/message.ber", folder, mta))
    return wrong, len(found)


def programs(document, mta, made):
    found, wrong = [block for kind, block in blocks(document) if kind == "" and "python3 checks/" in block], 0
    for at, block in enumerate(found):
        folder = f"{made}/programs{at}"
        os.mkdir(folder)
        os.symlink(f"{TOP}/checks", f"{folder}/checks")
        # what goes on in the background has to listen before the next line calls it
        script = re.sub(r" &\n", " &\nsleep 2\n", block)
        got = ran(f"set -e\n{script}wait\necho '{MARK}'\n", folder, mta)
        if MARK not in got:
            print(f"{document} has\n{block}which prints\n{got}")
            wrong += 1
    return wrong, len(found)


def displays(page):
    """The literal displays of a manual page."""
    with open(f"{TOP}/{page}", encoding="utf-8") as file:
        found = re.findall(r"^\.Bd -literal[^\n]*\n(.*?)^\.Ed$", file.read(), re.M | re.S)
    return [it.replace("\\&", "").replace("\\e", "\\") for it in found]


def with_agents(commands, folder):
    """The commands with agents of contrib/sample in the folder: one that goes on is stopped, each `mta serve` is called
    in the folder of the agent whose it is, and other hosts are this one."""
    shutil.copytree(f"{TOP}/contrib/sample", f"{folder}/lib", dirs_exist_ok=True)
    lines = commands.replace("/var/lib/mta", "lib").replace("gold.example", "127.0.0.1").splitlines()
    script = "(cd lib/GOLD; mta submit) < samples/message.ber > /dev/null\n"
    for line in lines:
        if "--follow" in line:
            line = f"timeout 3 {line} | grep -q ' deliver item 1 ' && echo it follows || echo status $?"
        elif line.startswith("mta serve 1000000 "):
            line = f"(cd lib/GOLD; exec timeout 20 {line}) &"
        elif line.startswith("mta serve "):
            line = f"(cd lib/SILVER; {line})"
        script += f"{line}\n"
    return script + "kill %1 2> /dev/null\n"


def page_blocks(page, mta, made):
    """The displays of a page, each beside a copy of the samples: a command is one line of its own there."""
    wrong = 0
    for at, block in enumerate(displays(page)):
        folder = beside_samples(f"{made}/display{at}")
        shutil.copytree(f"{TOP}/samples", folder, dirs_exist_ok=True)
        if "$ " not in block:
            with open(f"{folder}/mta.tables", "w", encoding="utf-8") as file:
                file.write(block)
            wrong += differs(page, "accepted 1\n", ran("mta submit < message.ber", folder, mta))
            continue
        with open(f"{folder}/plan.pdf", "wb") as file:
            file.write(b"a plan")
        commands, wanted = split(re.sub(r"\\\n +", "", block))
        if "/var/lib" in commands or ".example" in commands:
            commands = with_agents(commands, folder)
            wanted = wanted or "it follows\n"
        elif any(it in commands for it in ("mta.spool", "mta-content", "mta_store")):
            commands = "mta submit < message.ber > /dev/null\n" + commands
        got = ran(commands, folder, mta)
        # a page shows what the first command prints, or nothing
        wrong += differs(page, wanted, got) if wanted else 0
        if "status" in got or "No such file" in got or "not found" in got:
            print(f"{page} has\n{block}which prints\n{got}")
            wrong += 1
    return wrong, len(displays(page))


BESIDE = ""  # the folder of the tools


def main():
    global BESIDE
    mta, wrong, count = os.path.abspath(sys.argv[1]), 0, 0
    jobs = [(it, (consoles, scripts, tables, programs)) for it in ("README.md", "docs/MANUAL.md", "docs/PROTOCOL.md")]
    jobs += [(f"man/{page}", (page_blocks,)) for page in sorted(os.listdir(f"{TOP}/man"))]
    with tempfile.TemporaryDirectory() as beside:
        BESIDE = beside
        tools(beside)
        os.symlink(os.path.abspath(sys.argv[2]), f"{beside}/mta_rehearse")
        os.symlink(os.path.abspath(sys.argv[3]), f"{beside}/mta_audit")
        os.symlink(os.path.abspath(sys.argv[4]), f"{beside}/mta_follow")
        os.symlink(os.path.abspath(sys.argv[5]), f"{beside}/mta_store")
        for document, kinds in jobs:
            with tempfile.TemporaryDirectory() as made:
                for kind in kinds:
                    bad, all_of_it = kind(document, mta, made)
                    wrong, count = wrong + bad, count + all_of_it
    print(f"{count} blocks run and compared, {wrong} differ")
    sys.exit(wrong > 0)


main()
