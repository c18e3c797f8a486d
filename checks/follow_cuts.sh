#!/usr/bin/env bash
# A standby that follows a spool over loopback, through connections that are cut at random octets in either direction,
# and processes that are stopped by SIGKILL: it ends equal to the spool, and never holds what the spool does not. Run it
# at the top of the repository; `checks/follow_cuts.sh CUTS` has so many (200).
set -u
cd "$(dirname "$0")/.." || exit 2
. checks/program.bash
tools rt python3
folder
found mta_follow
PYTHONDONTWRITEBYTECODE=1 python3 checks/follow_cuts.py "$found" "$made" "${1:-200}"
