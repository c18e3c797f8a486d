#!/usr/bin/env python3
"""Says whether docs/DEFINITIONS.md is up to date: checks/definitions.py, at the top of the repository. With `--write`
it is written anew.

A row is a file of a crate's `specs/`: what the comment at its head says, its types and relations, whose names begin
with a capital, and those of its functions that a contract or another file of definitions cites. The headings are the
comments of crates.txt, and the crates stand in the order that it has.
"""
import collections
import glob
import os
import re
import sys

DOCUMENT = "docs/DEFINITIONS.md"
TOP = """# Definitions

Where each definition stands: the types and relations, and the functions that contracts or other definitions cite. This
page is made of the heads of the files by `python3 checks/definitions.py --write`. To look a name up search for it here,
or `grep -rn "pub.* NAME" crates/*/specs`; the comment above a definition says what it is. A head names the standard
that its definitions come from; what no head says to be of one is this project's own.
[ARCHITECTURE.md](ARCHITECTURE.md#rules-and-where-they-stand) goes the other way, from a rule to its definition and its
code, and [WORDS.md](WORDS.md) has our words beside the standards'.
"""
# (a line with `pub` and a name alone is a field where it is indented)
FORMS = r" *[a-z]+ pub (?:record |data )?| *pub (?:record|data) |pub "
DEFINED = re.compile(rf"^(?:{FORMS})(?!mod |use )([A-Za-z]\w*)", re.M)
CITED = re.compile(r"use Rattle\.(mta_\w+)\.specs\.([\w.]+?)(?:\.\{([^}]*)\}| as (\w+))")
STANDARD = re.compile(r"X\.[0-9]{3}")


def text_of(path):
    with open(path, encoding="utf-8") as file:
        return file.read()


def cited():
    """The names that contracts or other definitions cite of each file, which is told by its crate and its module."""
    found = collections.defaultdict(set)
    sources = glob.glob("crates/*/src/**/*.rt", recursive=True)
    for path in sources + glob.glob("crates/*/specs/**/*.antt", recursive=True):
        text = text_of(path)
        for crate, module, names, alias in CITED.findall(text):
            each = names.split(",") if names else re.findall(rf"\b{alias}\.([A-Za-z_]\w*)", text)
            found[crate, module] |= {it.split(" as ")[0].strip() for it in each}
    return found


def head_of(text):
    """The comment with which a file begins."""
    lines = []
    for line in text.splitlines():
        if not line.startswith("--"):
            break
        lines.append(line[2:].strip())
    return " ".join(lines).replace("|", "\\|")


def rows_of(crate, names):
    top = f"crates/{crate}/specs"
    for path in sorted(glob.glob(f"{top}/**/*.antt", recursive=True)):
        if os.path.basename(path) == "Lib.antt":
            continue
        text, module = text_of(path), os.path.relpath(path, top)[:-5].replace("/", ".")
        told = [it for it in dict.fromkeys(DEFINED.findall(text)) if it[0].isupper() or it in names[crate, module]]
        each = ", ".join(f"`{it}`" for it in told)
        yield f"| `{path.removeprefix('crates/')}` | {head_of(text)} | {each} |"


def sections():
    """The crates under the comments of crates.txt."""
    heading = None
    found = {}
    for line in text_of("crates.txt").splitlines()[1:]:
        if line.startswith("#"):
            heading = line[1:].strip()
        elif line.strip():
            found.setdefault(heading, []).append(re.split("[ :]", line)[0])
    return found


def page():
    names, parts = cited(), [TOP]
    for heading, crates in sections().items():
        rows = [row for crate in crates for row in rows_of(crate, names)]
        if not rows:
            continue
        said = sorted(set(STANDARD.findall("\n".join(rows))))
        parts.append(f"## {heading}\n\n{'After ' + ', '.join(said) if said else 'Own'}.\n\n"
                     "| Place | What it says | Names |\n|---|---|---|\n" + "\n".join(rows) + "\n")
    return "\n".join(parts)


def main():
    if sys.argv[1:] == ["--write"]:
        with open(DOCUMENT, "w", encoding="utf-8") as file:
            file.write(page())
    elif sys.argv[1:]:
        sys.exit("usage: checks/definitions.py [--write]")
    elif page() != text_of(DOCUMENT):
        sys.exit(f"{DOCUMENT} is not what the heads of specs/ say: python3 checks/definitions.py --write")
    else:
        print(f"{DOCUMENT} is what the heads of specs/ say")


main()
