#!/usr/bin/env bash
# The spools of samples/spools, as programs wrote them before a spool had a format, opened by the program: each prints
# the queue beside it and gets its format, and is served on. Run it at the top of the repository.
set -u
cd "$(dirname "$0")/.." || exit 2
. checks/program.bash
program python3
PYTHONDONTWRITEBYTECODE=1 python3 checks/older_spools.py "$mta" "$made"
