#!/usr/bin/env bash
# Each command of the five programs with each set of the descriptors 0, 1 and 2 closed, with mta.tables and without: the
# spool and the marks are what they are without that, or as before, and the status is that of an input that is empty and
# an output that fails. No file takes the place of a descriptor that was closed. Run it at the top of the repository.
set -u
cd "$(dirname "$0")/.." || exit 2
. checks/program.bash
tools rt python3
folder
programs=()
for name in mta mta_store mta_audit mta_follow mta_rehearse; do
  found "$name"
  programs+=("$found")
done
PYTHONDONTWRITEBYTECODE=1 python3 checks/peer/descriptors.py "$made" "${programs[@]}"
