#!/usr/bin/env bash
# One allocation after another is refused, of the proved programs that the gate left: `mta submit` ends with status 7
# or succeeds, what was acknowledged is kept, and the next call goes on; and of the rows of mta_run_rows that say what
# may be left then, each is answered as it is without a refusal, or there was no memory to ask it. Run it at the top of
# the repository; `checks/memory.sh N` refuses N allocations of each, spread over all there are (100).
#
# `checks/memory.sh --try N ..` refuses these allocations of the rows by the toolchain's own form, with no proved
# program. Each costs a compilation, which takes minutes.
set -u
cd "$(dirname "$0")/.." || exit 2
. checks/program.bash
tools rt python3 cc
folder
export PYTHONDONTWRITEBYTECODE=1
if [ "${1:-}" = --try ]; then
  shift
  exec python3 checks/peer/memory.py --try "$@"
fi
for name in mta mta_run_rows; do
  if is_old "crates/$name/out/$name"; then
    echo "skipped: no proved $name, and the unproved one has an allocator of its own (see --try)"
    exit 0
  fi
done
cc -Wall -Wextra -O1 -shared -fPIC -o "$made/memory.so" checks/memory.c -ldl || exit 1
python3 checks/peer/memory.py "$PWD/crates/mta/out/mta" "$PWD/crates/mta_run_rows/out/mta_run_rows" \
  "$made/memory.so" "$made" "${1:-100}"
