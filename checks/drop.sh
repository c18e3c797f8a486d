#!/usr/bin/env bash
# The drop folder (contrib/mta-drop): each file is submitted exactly once, over a stop before and after each call of the
# system that the tool makes, and over 200 kills at random; what is no message lies beside with its fault in words. Run
# it at the top of the repository.
set -u
cd "$(dirname "$0")/.." || exit 2
. checks/program.bash
program python3
PYTHONDONTWRITEBYTECODE=1 python3 checks/drop.py "$mta" "$made"
