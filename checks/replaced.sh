#!/usr/bin/env bash
# The spool is removed, replaced or cut under an agent that serves, between two sessions and within one: the process
# ends with status 4 at its next step, and nothing is acknowledged after that. Run it at the top of the repository.
set -u
cd "$(dirname "$0")/.." || exit 2
. checks/program.bash
program python3
PYTHONDONTWRITEBYTECODE=1 python3 checks/peer/replaced.py "$mta" "$made"
