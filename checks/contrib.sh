#!/usr/bin/env bash
# The tools of contrib: what they say of spools is what `mta spool` and `mta read` print, what they make is read by
# `mta` and by Wireshark's dissector, and install.sh puts everything in place and takes it out. Run it at the top of
# the repository.
set -u
cd "$(dirname "$0")/.." || exit 2
. checks/program.bash
program python3
wrong=0
found mta_store
export PYTHONDONTWRITEBYTECODE=1
python3 checks/contrib.py "$mta" "$made" "$found" || wrong=1
python3 checks/watching.py "$mta" "$made" "$found" || wrong=1
python3 checks/messages.py "$mta" "$made" || wrong=1
found mta_rehearse
found mta_audit
found mta_follow
bash checks/install.bash "$mta" "$made" || wrong=1
exit "$wrong"
