#!/usr/bin/env bash
# Stations that end while others of the process serve: after a sync that failed, and on a full disk, the process ends
# with status 4 within seconds, whatever its stations wait for; a station that had all its sessions, or whose sessions
# were used up by connections without a name, refuses its callers from then on, mta.stations and mta-watch say so, and
# the other station serves. Run it at the top of the repository.
set -u
cd "$(dirname "$0")/.." || exit 2
. checks/program.bash
program python3 cc prlimit
cc -Wall -Wextra -O1 -shared -fPIC -o "$made/disks.so" checks/disks.c -ldl || exit 1
# a disk that gets full is mounted in a namespace of its own
under=(unshare --mount)
"${under[@]}" true 2>/dev/null || under=()
PYTHONDONTWRITEBYTECODE=1 "${under[@]}" python3 checks/peer/ended.py "$mta" "$made/disks.so" "$made"
