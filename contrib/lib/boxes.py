"""The mailboxes of an agent that may serve: mta_store on a copy of its spool, beside its own marks.

The numbers of entries stay over everything that becomes of a spool, and a copy has a beginning of its history. The
marks have a lock of their own, which mta_store takes, so two calls never write them at once.
"""
import os

import copies

MARKS = "mta.marks"
PROGRAM = "mta_store"


def program_of(word=None):
    """The program of a word, of the environment's MTA_STORE, or of the PATH."""
    program = word or os.environ.get("MTA_STORE") or PROGRAM
    return os.path.abspath(program) if os.sep in program else program


def make_marks(folder, spool):
    """Makes the file of the marks where it is absent, so that it stands in the agent's folder for good, and belongs to
    whom the spool belongs."""
    path = os.path.join(folder, MARKS)
    try:
        it = os.open(path, os.O_CREAT | os.O_EXCL | os.O_WRONLY, 0o600)
    except FileExistsError:
        return path
    try:
        if os.geteuid() == 0:
            owner = os.stat(spool)
            os.fchown(it, owner.st_uid, owner.st_gid)
        os.fsync(it)
    finally:
        os.close(it)
    place = os.open(folder, os.O_RDONLY)
    try:
        os.fsync(place)
    finally:
        os.close(place)
    return path


def called(folder, words, program=None, tool="mta-box"):
    """What mta_store prints, as octets, and its status."""
    spool = os.path.join(folder, copies.SPOOL)
    if not os.path.exists(spool):
        raise FileNotFoundError(2, "no such spool", spool)
    marks = make_marks(folder, spool)
    ran, _, _ = copies.run_on_copy(spool, [program_of(program), *words], tool, [marks])
    return ran.stdout, ran.returncode
