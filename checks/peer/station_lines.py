"""What an agent's file mta.stations says of its stations."""
import os
import re

from pairs import Wrong

LINE = 512  # octets of a line
NAMES = ("station", "way", "place", "since", "waiting", "dropped", "dropped_at", "sessions", "sessions_at", "peer",
         "peer_at", "error", "error_at", "why", "process", "ended", "ended_at")
FORM = re.compile(r"station (\d+) (in|out) (\S+) since (\d+) waiting (\d+) dropped (\d+) at (\d+) sessions (\d+) at "
                  r"(\d+) peer (\S+) at (\d+) error (-?\d+) at (\d+) (.*?) ?process (\d+) "
                  r"ended (-|served|given-up|refused) at (\d+) *\n")


def stations(agent):
    """The lines of mta.stations, each as its words by their names."""
    found = []
    with open(f"{agent.folder}/mta.stations") as file:
        if os.fstat(file.fileno()).st_mode & 0o777 != 0o600:
            raise Wrong("others may read mta.stations")
        for line in file:
            if len(line) != LINE:
                raise Wrong(f"a line of {len(line)} octets: {line!r}")
            words = FORM.fullmatch(line)
            if not words:
                raise Wrong(f"no line of a station: {line!r}")
            found.append(dict(zip(NAMES, words.groups())))
    return found
