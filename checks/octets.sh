#!/usr/bin/env bash
# The whole session in octets of docs/PROTOCOL.md, played to `mta serve`. Run it at the top of the repository.
set -u
cd "$(dirname "$0")/.." || exit 2
. checks/program.bash
program python3
PYTHONDONTWRITEBYTECODE=1 python3 checks/octets.py "$mta" "$made/octets"
