"""A file of what was told of an agent: up to which place, of how many refused calls, and whether more may have been.

It is written before some steps are told, with the word that they may be, and behind them. So whoever is stopped between
the two knows of which steps it is in doubt.
"""
import json
import os

import follow

FORM = 1


class Told:
    """What a file says; nothing was told where it is absent."""

    def __init__(self, path=None):
        self.path, self.place, self.refused, self.in_doubt = path, None, {}, False
        if path is not None and os.path.exists(path):
            self.load()

    def load(self):
        with open(self.path, encoding="utf-8") as file:
            text = file.read()
        try:
            said = json.loads(text)
            if said["form"] != FORM:
                raise ValueError(f"form {said['form']}")
            self.place = follow.Place(**said["place"]) if said["place"] else None
            self.refused, self.in_doubt = dict(said["refused"]), bool(said["in_doubt"])
        except (ValueError, KeyError, TypeError) as why:
            raise OSError(0, f"this is no file of what was told: {why}", self.path) from why

    def save(self, in_doubt):
        self.in_doubt = in_doubt
        if self.path is None:
            return
        said = {"form": FORM, "in_doubt": in_doubt, "refused": self.refused,
                "place": self.place._asdict() if self.place else None}
        beside = f"{self.path}.new"
        with open(beside, "w", encoding="utf-8") as file:
            json.dump(said, file)
            file.flush()
            os.fsync(file.fileno())
        os.replace(beside, self.path)
