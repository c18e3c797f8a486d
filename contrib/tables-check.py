#!/usr/bin/env python3
"""Says in words what is wrong with a text of tables: every line of it, and not the first one alone.

FILE is an mta.tables, or the agent's folder, or a file of mta_rehearse with the tables of several agents, a line ---
between two. The judge is `mta submit < /dev/null`, which this tool runs on a copy in a folder of its own: status 2 and
a line where the tables are bad, and 6, for the missing APDU, where they are good.

Of several agents it also compares the two `peer` lines of each pair: the passwords, which each has to expect as the
other sends it, and the modes; where sizes or windows differ it says which counts.

The tool's status is 0 where nothing is wrong, 1 where something is, and 2 where a file cannot be read.
"""
import itertools
import os
import re
import shutil
import subprocess
import sys
import tempfile

sys.path.insert(0, os.path.join(os.path.dirname(os.path.realpath(__file__)), "lib"))
import p1  # noqa: E402
import tool  # noqa: E402

TABLES = "mta.tables"
BETWEEN = "---"  # a line between the tables of two agents, in a file of mta_rehearse
LONGEST = 1048576
WORD = re.compile(r"[A-Za-z0-9-]{1,32}")
PASSWORD = re.compile(r"[!-~]{1,62}")
NUMBER = re.compile(r"0|[1-9][0-9]*")
# the first words, with what the line has after it
LINES = {
    "domain": "C=COUNTRY;A=ADMD, or C=COUNTRY;A=ADMD;P=PRMD", "name": "WORD", "peer": "WORD OUT IN MODE SIZE WINDOW",
    "mailbox": "WORD NAME", "list": "WORD POLICY NAME", "from": "WORD PATTERN", "member": "WORD NAME",
    "route": "PATTERN here, or PATTERN peer WORD", "hold": "PRIORITY SECONDS",
}
MOST = {"peer": 64, "mailbox": 4096, "list": 256, "route": 4096}
MOST_OF_LIST = {"from": 100, "member": 1000}
ENDS_IN_NAME = ("domain", "mailbox", "list", "member", "from")
PATTERN_PARTS = ("C", "A", "P", "O", "OU")


class Peer:
    """What a `peer` line says."""

    def __init__(self, number, out, into, mode, size, window):
        self.number, self.out, self.into, self.mode, self.size, self.window = number, out, into, mode, size, window


class Checker:
    """Goes over the lines of an agent's tables, of which the first has this number. `wrong` has the number of each bad
    line and what is wrong with it, `agent` the agent's name, and `peers` what the good `peer` lines say."""

    def __init__(self, first=1):
        self.first, self.wrong, self.seen, self.counts = first, [], {}, {}
        self.agent, self.peers = None, {}

    def say(self, number, text):
        self.wrong.append((number, text))

    def once(self, number, key, what):
        if key in self.seen:
            self.say(number, f"{what} stands in line {self.seen[key]} already")
        self.seen.setdefault(key, number)

    def count(self, number, key, most, what):
        self.counts[key] = self.counts.get(key, 0) + 1
        if self.counts[key] == most + 1:
            self.say(number, f"there are more than {most} {what}")

    # ---- the text

    def lines(self, lines):
        for number, line in enumerate(lines, self.first):
            self.line(number, line)
        for key in ("domain", "name"):
            if key not in self.counts:
                self.say(self.first + len(lines), f"no line has `{key} {LINES[key]}`")

    def line(self, number, line):
        if line.endswith("\r"):
            self.say(number, "the line ends with CR LF; a line ends with LF alone (dos2unix mends it)")
            line = line[:-1]
        if not line or line.startswith("#"):
            return
        if line[0] in " \t":
            is_comment = line.strip().startswith("#")
            where = "the # of a comment" if is_comment else "the first word"
            self.say(number, f"a space or tab stands before {where}")
            if is_comment:
                return
            line = line.strip(" \t")
        if "\t" in line:
            self.say(number, "a tab stands in the line; one space separates words")
        # at the end of a name a space does not count
        if line != line.rstrip(" ") and line.partition(" ")[0] not in ENDS_IN_NAME:
            self.say(number, "a space stands at the end of the line")
            line = line.rstrip(" ")
        word, _, rest = line.partition(" ")
        if word not in LINES:
            near = next((it for it in LINES if it == word.lower()), None)
            self.say(number, f"no line begins with {word!r}" + (f"; it is written {near}" if near else ""))
            return
        self.counts.setdefault(word, 0)
        if rest.startswith(" ") or self.has_two_spaces(word, rest):
            self.say(number, "two spaces stand where one separates words")
            rest = re.sub(" +", " ", rest.strip())
        getattr(self, "line_" + word)(number, rest)

    def has_two_spaces(self, word, rest):
        """Whether two spaces stand before the name, in which they may."""
        head = rest if word in ("name", "peer", "hold") else rest.partition("C=")[0]
        return "  " in head

    def split(self, number, kind, rest, count):
        """The words of the line: `count` of them, the last one perhaps of several; None where there are others."""
        words = rest.split(" ", count - 1)
        if len(words) < count or not words[-1]:
            self.say(number, f"a word is missing: {kind} {LINES[kind]}")
            return None
        return words

    def word(self, number, text, what):
        if not WORD.fullmatch(text):
            self.say(number, f"{what} is 1 to 32 letters, digits or -, and not {text!r}")

    def number(self, number, text, least, most, what):
        if not NUMBER.fullmatch(text) or not least <= int(text) <= most:
            self.say(number, f"{what} is {least} to {most}, without a leading zero, and not {text!r}")

    def name(self, number, text, parts=p1.PARTS):
        """The normal form of a name; None where it is none."""
        try:
            name = p1.name_from(text)
        except p1.BadName as why:
            self.say(number, str(why))
            return None
        if name.text() != text:
            self.say(number, f"the parts of a name have an order: {name.text()}")
        others = [key for key, _ in name.parts if key not in parts]
        if others and parts != p1.PARTS:
            self.say(number, f"{others[0]} has no place here; the parts are {', '.join(parts)}")
        return name.normal()

    def pattern(self, number, text):
        normal = self.name(number, text, PATTERN_PARTS)
        keys = [key for key, _ in normal[0]] if normal else []
        last = max((PATTERN_PARTS.index(it) for it in keys if it in PATTERN_PARTS), default=-1)
        absent = [it for it in PATTERN_PARTS[:last + 1] if it not in keys]
        if absent:
            self.say(number, f"a pattern leaves out no part before its last, and {absent[0]} is absent")
        return normal

    # ---- its lines

    def line_domain(self, number, rest):
        self.once(number, "domain", "the domain")
        self.counts["domain"] += 1
        normal = self.name(number, rest, ("C", "A", "P"))
        if normal and not {"C", "A"} <= {key for key, _ in normal[0]}:
            self.say(number, f"a domain is {LINES['domain']}")

    def line_name(self, number, rest):
        self.once(number, "name", "the agent's name")
        self.counts["name"] += 1
        self.word(number, rest, "an agent's name")
        self.agent = self.agent or rest

    def line_peer(self, number, rest):
        words = rest.split(" ")
        if len(words) != 6:
            self.say(number, f"{len(words)} words stand where six do: peer {LINES['peer']}")
            return
        peer, out, into, mode, size, window = words
        self.word(number, peer, "a peer's name")
        for password in (out, into):
            if not PASSWORD.fullmatch(password):
                self.say(number, "a password is 1 to 62 characters of ASCII without a space")
        if mode not in ("monologue", "twa"):
            self.say(number, f"the mode is monologue or twa, and not {mode!r}")
        self.number(number, size, 0, 64, "the checkpoint size")
        self.number(number, window, 1, 8, "the window")
        self.once(number, ("peer", peer), f"the peer {peer}")
        self.count(number, "peer", MOST["peer"], "peers")
        if NUMBER.fullmatch(size) and NUMBER.fullmatch(window):
            self.peers.setdefault(peer, Peer(number, out, into, mode, int(size), int(window)))

    def box(self, number, kind, word, name):
        self.word(number, word, f"the word of a {kind}")
        normal = self.name(number, name)
        self.once(number, (kind, word), f"the {kind} {word}")
        if normal:
            self.once(number, ("box", normal), f"the name {name}")
        self.count(number, kind, MOST[kind], f"{kind}s" if kind == "list" else "mailboxes")

    def line_mailbox(self, number, rest):
        if words := self.split(number, "mailbox", rest, 2):
            self.box(number, "mailbox", *words)

    def line_list(self, number, rest):
        if words := self.split(number, "list", rest, 3):
            word, policy, name = words
            if policy not in ("back", "keep"):
                self.say(number, f"the policy is back or keep, and not {policy!r}")
            self.box(number, "list", word, name)

    def of_list(self, number, kind, rest, check):
        if words := self.split(number, kind, rest, 2):
            if ("list", words[0]) not in self.seen:
                self.say(number, f"no earlier line has the list {words[0]}")
            check(number, words[1])
            self.count(number, (kind, words[0]), MOST_OF_LIST[kind], f"`{kind}` lines of the list {words[0]}")

    def line_from(self, number, rest):
        self.of_list(number, "from", rest, self.pattern)

    def line_member(self, number, rest):
        self.of_list(number, "member", rest, self.name)

    def line_route(self, number, rest):
        words = rest.split(" ")
        to_peer = len(words) > 2 and words[-2] == "peer"
        pattern = " ".join(words[:-2] if to_peer else words[:-1])
        if not pattern or not to_peer and words[-1] != "here":
            self.say(number, f"a route is `route {LINES['route']}`")
            return
        if to_peer and ("peer", words[-1]) not in self.seen:
            self.say(number, f"no earlier line has the peer {words[-1]}")
        normal = self.pattern(number, pattern)
        if normal:
            self.once(number, ("route", normal), f"a route of {pattern}")
        self.count(number, "route", MOST["route"], "routes")

    def line_hold(self, number, rest):
        if words := self.split(number, "hold", rest, 2):
            if words[0] not in ("urgent", "normal", "non-urgent"):
                self.say(number, f"the priority is urgent, normal or non-urgent, and not {words[0]!r}")
            self.number(number, words[1], 0, 31536000, "the hold time in seconds")
            self.once(number, ("hold", words[0]), f"the hold time of {words[0]}")


# ---- files


class Texts:
    """The texts of a file, each with a checker: one, or those of a rehearsal. `wrong` is what is wrong with it all."""

    def __init__(self, path, octets):
        self.path, self.wrong, self.checkers, self.octets = path, [], [], []
        if len(octets) > LONGEST:
            self.wrong.append((1, f"the text has {len(octets)} octets, and at most {LONGEST} are read"))
        if octets.startswith(b"\xef\xbb\xbf"):
            self.wrong.append((1, "the file begins with a byte order mark; save it as ASCII, or UTF-8 without one"))
        lines = self.lines_of(octets.removeprefix(b"\xef\xbb\xbf"))
        places = [at for at, line in enumerate(lines) if line == BETWEEN] + [len(lines)]
        # the judge has the octets as they are
        raw, first = octets.split(b"\n"), 0
        for last in places:
            self.add(lines[first:last], b"\n".join(raw[first:last]), first + 1, last == len(lines))
            first = last + 1

    def lines_of(self, octets):
        """The lines, whose letters are those of UTF-8 where they can be."""
        try:
            lines = octets.decode("utf-8").split("\n")
        except UnicodeDecodeError:
            lines = octets.decode("latin-1").split("\n")
        self.has_end = not lines[-1]
        if self.has_end:
            lines.pop()
        else:
            self.wrong.append((len(lines), "the last line has no line feed at its end"))
        return lines

    def add(self, lines, octets, first, is_last):
        checker = Checker(first)
        checker.lines(lines)
        self.checkers.append(checker)
        self.octets.append(octets + (b"\n" if lines and (self.has_end or not is_last) else b""))

    def all_wrong(self):
        return sorted(self.wrong + [it for checker in self.checkers for it in checker.wrong])

    def judged(self, program):
        """What `mta` says of the first text that it does not take, with the line's number in the file; None where it
        takes all."""
        for checker, octets in zip(self.checkers, self.octets):
            line = judged(program, octets)
            if line is not None:
                return re.sub(r"^tables line (\d+)", lambda it: f"tables line {int(it[1]) + checker.first - 1}", line)
        return None


def judged(program, octets):
    """What `mta` says of the tables: its line, or None where it takes them."""
    with tempfile.TemporaryDirectory(prefix="tables-check-") as made:
        with open(os.path.join(made, TABLES), "wb") as file:
            file.write(octets)
        how = {"cwd": made, "stdin": subprocess.DEVNULL, "stdout": subprocess.PIPE}
        ran = subprocess.run([program, "submit"], **how)
    return None if ran.returncode == 6 else ran.stdout.decode("latin-1").strip()


# ---- pairs of agents


def wrong_of_sender(one, other, its, theirs):
    """What is wrong where the one calls the other or sends to it, by their lines on each other."""
    if its.out != theirs.into:
        yield (f"the password that {one} sends (line {its.number}) is not the one that {other} expects "
               f"(line {theirs.number})")
    if (its.mode, theirs.mode) == ("twa", "monologue"):
        yield f"{other} refuses the sessions that {one} calls: its mode is monologue, and that of {one} is twa"


def said_of_pair(one, other):
    """What is wrong between two agents, and what there is to know."""
    its, theirs = one.peers.get(other.agent), other.peers.get(one.agent)
    if its is None or theirs is None:
        lacks, has = (one, other) if its is None else (other, one)
        return [f"{has.agent} has the peer {lacks.agent}, and {lacks.agent} has no peer {has.agent}"], []
    wrong = [*wrong_of_sender(one.agent, other.agent, its, theirs),
             *wrong_of_sender(other.agent, one.agent, theirs, its)]
    known = [f"{what} {mine} against {other_s}, of which {min(mine, other_s)} counts"
             for what, mine, other_s in (("checkpoint size", its.size, theirs.size),
                                         ("window", its.window, theirs.window)) if mine != other_s]
    return wrong, known


def compare(checkers):
    """Prints what there is to say of each pair of agents that know each other; whether anything is wrong."""
    is_wrong = False
    for one, other in itertools.combinations([it for it in checkers if it.agent], 2):
        if one.agent == other.agent:
            wrong, known = [f"two agents have the name {one.agent}"], []
        elif other.agent in one.peers or one.agent in other.peers:
            wrong, known = said_of_pair(one, other)
        else:
            continue
        is_wrong = is_wrong or bool(wrong)
        for line in wrong + known or ["agree"]:
            print(f"{one.agent} and {other.agent} agree" if line == "agree" else
                  f"{one.agent} and {other.agent}: {line}")
    return is_wrong


def said_of_file(texts, program, before):
    """Prints what there is to say of a file; whether anything is wrong."""
    wrong = texts.all_wrong()
    for number, text in wrong:
        print(f"{before}line {number}: {text}")
    if program is None:
        print(f"{before}mta is not on the PATH, so it did not judge")
        return bool(wrong)
    line = texts.judged(program)
    print(before + (f"mta says: {line}" if line else "mta takes these tables"))
    return bool(wrong or line)


def read(word):
    path = os.path.join(word, TABLES) if os.path.isdir(word) else word
    with open(path, "rb") as file:
        return Texts(word, file.read())


def main():
    it = tool.parser("tables-check.py", __doc__)
    it.add_argument("files", metavar="FILE", nargs="+")
    it.add_argument("--mta", metavar="PROGRAM", default="mta", help="the judge; mta of the PATH where it is absent")
    said = it.parse_args()
    program = os.path.abspath(said.mta) if os.sep in said.mta else shutil.which(said.mta)
    files = [read(word) for word in said.files]
    is_wrong = [said_of_file(each, program, f"{each.path}: " if len(files) > 1 else "") for each in files]
    is_wrong.append(compare([checker for each in files for checker in each.checkers]))
    sys.exit(any(is_wrong))


tool.run("tables-check.py", main)
