#!/usr/bin/env python3
"""Fetches an entry of a mailbox, also while the agent serves, and writes its content to a file.

It fetches entry N of MAILBOX as mta-box does, of the agent in the current folder or in that of --folder, takes the
octets of the `content` line, which is the last, and puts them into FILE, which is written beside it first and is on the
disk when this ends with status 0. Then the entry may go: `mta-box FOLDER delete MAILBOX N`. Whatever goes wrong, it may
be fetched again. With --as USER it has `sudo -u USER mta-box` fetch the entry, so FILE is the caller's own.

A report has no content: status 20 says so. Status 21 says that FILE was not written, and 2 that the words are others or
that there is no spool or no program. MTA_STORE names mta_store, where it is not on the PATH. Where mta_store ends with
a status that is not 0, so does this, and its line goes to standard error.
"""
import os
import subprocess
import sys

sys.path.insert(0, os.path.join(os.path.dirname(os.path.realpath(__file__)), "lib"))
import boxes  # noqa: E402
import tool  # noqa: E402

NO_CONTENT, NOT_WRITTEN = 20, 21


def content_of(text):
    """The octets of the last line, which is `content LENGTH HEX`; None where it is another."""
    lines = text.splitlines()
    words = lines[-1].split(" ") if lines else []
    if len(words) != 3 or words[0] != "content":
        return None
    octets = bytes.fromhex(words[2])
    return octets if len(octets) == int(words[1]) else None


def put(path, octets):
    """Writes a file whole: beside its place first, and then there."""
    beside = f"{path}.part"
    with open(beside, "wb") as it:
        it.write(octets)
        it.flush()
        os.fsync(it.fileno())
    os.replace(beside, path)
    folder = os.open(os.path.dirname(os.path.abspath(path)), os.O_RDONLY)
    try:
        os.fsync(folder)
    finally:
        os.close(folder)


def fetched(said):
    """The text of an entry and status 0, or what mta_store says and its status."""
    words = ["fetch", said.mailbox, said.number]
    if said.user is None:
        octets, status = boxes.called(said.folder, words, tool="mta-fetch")
    else:
        command = ["sudo", "-n", "-u", said.user, "--", "mta-box", os.path.abspath(said.folder), *words]
        ran = subprocess.run(command, stdin=subprocess.DEVNULL, stdout=subprocess.PIPE, check=False)
        octets, status = ran.stdout, ran.returncode
    return octets.decode("latin-1"), status


def words_of():
    it = tool.parser("mta-fetch", __doc__)
    it.add_argument("mailbox", metavar="MAILBOX")
    it.add_argument("number", metavar="N")
    it.add_argument("path", metavar="FILE")
    it.add_argument("--folder", metavar="FOLDER", default=".", help="the agent's; the current one where it is absent")
    it.add_argument("--as", metavar="USER", dest="user", help="fetch it as this user, by sudo")
    return it


def main():
    said = words_of().parse_args()
    text, status = fetched(said)
    if status:
        sys.stderr.write(text)
        sys.exit(status if status > 0 else 128 - status)
    octets = content_of(text)
    if octets is None:
        tool.fail("mta-fetch", f"entry {said.number} has no content", NO_CONTENT)
    try:
        put(said.path, octets)
    except OSError as why:
        tool.fail("mta-fetch", f"{said.path}: {why.strerror}", NOT_WRITTEN)


tool.run("mta-fetch", main)
