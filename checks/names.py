#!/usr/bin/env python3
"""Says which names the documents cite that are not there: checks/names.py, at the top of the repository.

In README.md and docs/*.md a name in backticks that looks like a path has to be a file or folder, one that begins
with `mta_` a crate, and one with an underscore, a `::` or a capital inside a word of the sources or of the other
documents' blocks. A name that stands right behind a source file has to stand in that file, and so have those behind a
file and a colon in docs/ARCHITECTURE.md. Links to files, and to headings in them, have to lead somewhere.
"""
import glob
import os
import re
import sys

WORD = re.compile(r"[A-Za-z_][A-Za-z0-9_]*")
NAME = re.compile(r"^[A-Za-z_][A-Za-z0-9_]*(::[A-Za-z_][A-Za-z0-9_]*)*$")
PATH = re.compile(r"^[A-Za-z0-9_./*-]+$")
ENDINGS = (".rt", ".antt", ".md", ".sh", ".py", ".txt", ".edit", ".ber", ".bash", ".lua", ".rs", ".c", ".1", ".5", "/")
DOCUMENTS = ["README.md", *sorted(glob.glob("docs/*.md")), "samples/README.md"]


def text_of(path):
    with open(path, encoding="utf-8") as file:
        return file.read()


def sources():
    found = [it for kind in ("rt", "antt") for it in glob.glob(f"crates/*/*/**/*.{kind}", recursive=True)]
    return [it for it in found if "/out/" not in it]


def plain(text):
    """The text without its blocks."""
    return re.sub(r"^```.*?^```$", "", text, flags=re.M | re.S)


def is_there(path, crate):
    own = [f"crates/{crate}/", f"crates/{crate}/src/", f"crates/{crate}/specs/"]
    each = ["crates/*/", "crates/*/src/", "crates/*/specs/", "crates/*/proofs/"]
    found = [f"{place}{path}" for place in ["", "crates/", "samples/", "docs/", "checks/", "contrib/", *own, *each]]
    return any(glob.glob(it.rstrip("/")) for it in found)


def wrong_names(document, words):
    crate = "mta"
    for name in re.findall(r"`([^`\n]+)`", plain(text_of(document))):
        if NAME.match(name) and name.startswith("mta_") and os.path.isdir(f"crates/{name}"):
            crate = name
        elif PATH.match(name) and (name.endswith(ENDINGS) or name.startswith(("crates/", "docs/", "checks/"))):
            if not is_there(name, crate) and not name.startswith("out/") and name not in OWN:
                yield f"{document}: no file {name}"
        elif NAME.match(name) and re.search(r"[A-Za-z]_|::|[a-z][A-Z]", name):
            for part in name.split("::"):
                if part not in words and name not in OWN:
                    yield f"{document}: no name {name}"
                    break


# files that a run makes, and names of other tools
OWN = {"mta.tables", "mta.spool", "NAME_tests"}


def wrong_functions(document):
    """A name that stands right behind a source file has to stand in that file."""
    for file, name in re.findall(r"`([\w/]+\.(?:rt|antt))`, `([\w:]+)`", plain(text_of(document))):
        found = [it for it in (f"crates/{file}", file) if os.path.exists(it)]
        if found and not re.search(rf"\b{name.split('::')[-1]}\b", text_of(found[0])):
            yield f"{document}: {name} does not stand in {file}"


def wrong_places(document):
    """Names behind a source file and a colon, as in a table of rules, have to stand in that file."""
    for line in text_of(document).splitlines():
        folder = ""
        for file, names in re.findall(r"`([\w/]+\.(?:rt|antt))`(?:: ((?:`\w+`(?:, )?)+))?", line):
            folder = os.path.dirname(file) or folder
            path = f"crates/{folder}/{os.path.basename(file)}"
            if not (names and folder):
                continue
            if not os.path.exists(path):
                yield f"{document}: no file {path}"
                continue
            for name in re.findall(r"\w+", names):
                if not re.search(rf"\b{name}\b", text_of(path)):
                    yield f"{document}: {name} does not stand in {path}"


def anchor_of(heading):
    return re.sub(r"[^\w\- ]", "", heading.strip().lower()).replace(" ", "-")


def wrong_links(document):
    for to in re.findall(r"\]\(([^)\s]+)\)", plain(text_of(document))):
        if "://" in to:
            continue
        path, _, anchor = to.partition("#")
        target = os.path.normpath(os.path.join(os.path.dirname(document), path)) if path else document
        if not os.path.exists(target):
            yield f"{document}: the link {to} leads to no file"
        elif anchor and anchor not in {anchor_of(it) for it in re.findall(r"^#+ (.*)$", text_of(target), re.M)}:
            yield f"{document}: the link {to} leads to no heading"


def main():
    words = set()
    beside = [it for place in ("checks/*", "contrib/*", "crates/*/must-fail/*.edit") for it in glob.glob(place)]
    for path in [*sources(), "crates.txt", *beside]:
        if os.path.isfile(path):
            words.update(WORD.findall(text_of(path)))
            words.add(os.path.splitext(os.path.basename(path))[0])
    wrong = []
    for document in DOCUMENTS:
        wrong += [*wrong_names(document, words), *wrong_functions(document), *wrong_links(document)]
    wrong += wrong_places("docs/ARCHITECTURE.md")
    print(*wrong, sep="\n" if wrong else "")
    print(f"{len(DOCUMENTS)} documents: {len(wrong)} names or links lead nowhere")
    sys.exit(bool(wrong))


main()
