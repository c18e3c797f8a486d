#!/usr/bin/env python3
"""Prints each link of the documents below a folder that leads to no file: checks/links.py FOLDER. Status 1 where one
does."""
import os
import re
import sys

LINK = re.compile(r"\]\(([^()\s]+)\)")


def broken(path):
    with open(path, encoding="utf-8") as file:
        for target in LINK.findall(file.read()):
            place = target.partition("#")[0]
            if place and "://" not in place and not place.startswith("mailto:"):
                if not os.path.exists(os.path.join(os.path.dirname(path), place)):
                    yield f"{path}: {target}"


def main(folder):
    found = [line for place, _, names in os.walk(folder) for name in sorted(names) if name.endswith(".md")
             for line in broken(os.path.join(place, name))]
    print("\n".join(found), end="\n" if found else "")
    return bool(found)


sys.exit(main(sys.argv[1]))
