"""Copies of a spool that an agent may have open, and programs that are run on them."""
import os
import signal
import subprocess
import sys
import tempfile
import time

import journal

SPOOL = "mta.spool"
NOT_A_SPOOL = 3  # the status of a program for which the file is no spool
PIECE = 1 << 20
TRIES = 3


def copied(path, to):
    """Copies the file from front to back, to the end that it has when that is reached. Whether it is one file: the same
    area is current as at the beginning."""
    with open(path, "rb") as file, open(to, "wb") as it:
        areas = os.pread(file.fileno(), journal.FIRST_GATE, 0)
        while octets := file.read(PIECE):
            it.write(octets)
        return os.pread(file.fileno(), journal.FIRST_GATE, 0) == areas


def run_on_copy(path, words, tool, links=()):
    """Runs a program in a folder with a copy of the spool and with links to other files of the agent, and removes that
    folder. Answers how it ran, when the copy was made, and when the spool was written last.

    A copy that is no spool may have been made while the file was put there, and one that is not one file while a
    snapshot was put in the place of all records: another is tried."""
    signal.signal(signal.SIGTERM, lambda *_: sys.exit(128 + signal.SIGTERM))  # so that the copy goes
    for _ in range(TRIES):
        with tempfile.TemporaryDirectory(prefix=f"{tool}-") as made:
            is_one = copied(path, os.path.join(made, SPOOL))
            when, written = time.time(), os.stat(path).st_mtime
            for link in links:
                os.symlink(os.path.abspath(link), os.path.join(made, os.path.basename(link)))
            ran = None
            if is_one:
                ran = subprocess.run(words, cwd=made, stdin=subprocess.DEVNULL, stdout=subprocess.PIPE, check=False)
        if is_one and ran.returncode != NOT_A_SPOOL:
            break
    if not is_one:
        raise journal.WrittenAnew(f"{path} was written anew while it was copied")
    return ran, when, written
