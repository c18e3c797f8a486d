#!/usr/bin/env bash
# The demo, built without proofs, prints the text of checks/demo.txt and nothing else: each command on the samples, and
# two agents that serve one another over a connection that breaks.
cd "$(dirname "$0")/.." || exit 2
. checks/program.bash
tools rt python3
folder
start=$SECONDS
got=$(./demo "$made/try") || { echo "$got"; echo "the demo failed"; exit 1; }
# what stands before the first empty line, and the last one, have paths
if ! diff <(sed '1,/^$/d;$d' <<<"$got") checks/demo.txt; then
  echo "< the demo, > checks/demo.txt"
  exit 1
fi
echo "the demo prints what it has to, after $((SECONDS - start)) seconds"
