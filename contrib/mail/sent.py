"""What was put into a drop folder, so that the same mail goes in once, however often and whenever this is stopped.

An APDU is written whole into the drop folder as a file whose name begins with a point, which nobody takes. Then a
record of it is made in the folder of what was sent, and then the file gets its name by one rename, with which it is
dropped. So once the record is there the file with the point is there if and only if it was not dropped yet, and a
second call finds out which. Each of the three is on the disk before the next one begins. Records are kept for as long
as a mail may be tried again, and longer, since reports come back that are told by them.
"""
import contextlib
import fcntl
import json
import os
import time

import drop

KEPT_SECONDS = 60 * 86400
LOCK, BESIDE = ".lock", ".mail-"
READABLE = 0o640  # by the group of those who take what was dropped


def written(path, octets):
    """Writes a file of these octets into its folder, and makes both durable."""
    with open(path, "wb") as file:
        file.write(octets)
        file.flush()
        os.fchmod(file.fileno(), READABLE)
        os.fsync(file.fileno())
        drop.sync_folder(os.path.dirname(path), file.fileno())


def renamed(path, to):
    """Gives a file another name in its folder, and makes that durable."""
    os.rename(path, to)
    with open(to, "rb") as file:
        drop.sync_folder(os.path.dirname(to), file.fileno())


@contextlib.contextmanager
def locked(folder):
    """One call at a time changes the records."""
    with open(os.path.join(folder, LOCK), "ab") as file:
        fcntl.flock(file, fcntl.LOCK_EX)
        yield


class Sent:
    """The records in a folder."""

    def __init__(self, folder):
        self.folder = folder

    def path(self, local):
        return os.path.join(self.folder, local)

    def record(self, local):
        """What was kept of a message; nothing where there is no record."""
        try:
            with open(self.path(os.path.basename(local)), encoding="utf-8") as file:
                found = json.load(file)
        except (OSError, ValueError):
            return {}
        return found if isinstance(found, dict) else {}

    def put(self, local, apdu, kept, folder):
        """Drops an APDU into a drop folder, once."""
        staged, dropped = (os.path.join(folder, drop.IN, it) for it in (BESIDE + local, local))
        with locked(self.folder):
            if not os.path.exists(self.path(local)):
                written(staged, apdu)
                self.keep(local, kept)
            if os.path.exists(staged):
                os.rename(staged, dropped)
                drop.sync_folder(os.path.join(folder, drop.IN))

    def keep(self, name, kept):
        """Makes a record of something that was done."""
        written(self.path(BESIDE + name), json.dumps(kept).encode("utf-8"))
        renamed(self.path(BESIDE + name), self.path(name))

    def forget_old(self, now=None):
        """Removes records of which no report comes any more."""
        limit = (time.time() if now is None else now) - KEPT_SECONDS
        for each in list(os.scandir(self.folder)):
            if each.name != LOCK and each.stat().st_mtime < limit:
                os.remove(each.path)
