#!/usr/bin/env python3
"""Installs the documents, for install.sh: documents.py TOP FOLDER.

Those of the repository at TOP come into FOLDER side by side, with the samples below it. A link between two of them
leads from the one to the other there; a link to what is not installed, as to the code, becomes its text.
"""
import os
import re
import shutil
import sys

LINK = re.compile(r"!?\[((?:[^\[\]]|\[[^\[\]]*\])*)\]\(([^()\s]+)\)")
NAMES = {"contrib/README.md": "contrib.md", "contrib/wireshark/mta.lua": "mta.lua", "docs/p1.asn1": "p1.asn1",
         "README.md": "README.md", "samples/README.md": "samples/README.md"}


def files_below(top, folder, endings):
    return sorted(os.path.join(folder, it) for it in os.listdir(os.path.join(top, folder)) if it.endswith(endings))


def places(top):
    """Where each file comes, by its place in the repository."""
    found = dict(NAMES)
    for it in files_below(top, "docs", (".md",)):
        found[it] = os.path.basename(it)
    for it in files_below(top, "docs/speed", (".svg",)):
        found[it] = os.path.join("speed", os.path.basename(it))
    for it in files_below(top, "samples", (".tables", ".ber", ".txt", ".routes")):
        found[it] = it
    for name in os.listdir(os.path.join(top, "contrib/sample")):
        found[f"contrib/sample/{name}/mta.tables"] = f"sample/{name}/mta.tables"
    return found


def with_links(text, source, found):
    """The text of a document, with its links as they lead here."""
    folders = {os.path.dirname(it): os.path.dirname(to) for it, to in found.items() if os.path.dirname(to)}

    def link(it):
        words, target = it[1], it[2]
        path, mark, anchor = target.partition("#")
        if "://" in target or target.startswith(("mailto:", "#")):
            return it[0]
        meant = os.path.normpath(os.path.join(os.path.dirname(source), path))
        to = found.get(meant, folders.get(meant))
        if to is None:
            return words
        here = os.path.relpath(to, os.path.dirname(found[source]) or ".")
        return it[0][:it[0].rindex("](")] + f"]({here}{mark}{anchor})"

    return LINK.sub(link, text)


def install(top, folder):
    found = places(top)
    for source, place in found.items():
        to = os.path.join(folder, place)
        os.makedirs(os.path.dirname(to), exist_ok=True)
        if source.endswith(".md"):
            with open(os.path.join(top, source), encoding="utf-8") as file, open(to, "w", encoding="utf-8") as made:
                made.write(with_links(file.read(), source, found))
        else:
            shutil.copyfile(os.path.join(top, source), to)
        os.chmod(to, 0o644)


if __name__ == "__main__":
    if len(sys.argv) != 3:
        sys.exit("usage: documents.py TOP FOLDER")
    install(*sys.argv[1:])
