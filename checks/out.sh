#!/usr/bin/env bash
# A station that calls, after what may pass: its peer's name is not found, its network is not reached, no file can be
# opened, or the peer refuses for minutes. Beside a station that is called it goes on calling, and its next session is
# made; alone it gives up after twelve calls, so that a run of it ends. Run it at the top of the repository.
set -u
cd "$(dirname "$0")/.." || exit 2
. checks/program.bash
program python3 cc
cc -Wall -Wextra -O1 -shared -fPIC -o "$made/calls.so" checks/calls.c -ldl || exit 1
PYTHONDONTWRITEBYTECODE=1 python3 checks/peer/out.py "$mta" "$made/calls.so" "$made"
