#!/usr/bin/env bash
# Hands an APDU over while an agent serves: submit.sh FOLDER PEER HOST PORT < APDU. FOLDER is that of a small agent of
# its own, a post office, whose tables route everything to the serving one, its PEER (contrib/sample/POST). The APDU is
# accepted there, and carried on by a call of at most ten seconds. One call is made at a time, and after one that did
# not get through none for a minute, so that nobody waits longer than one call. What is left goes with the next call
# that gets through, here or by a timer (mta-call@POST.timer). The status is that of `mta submit`; it is 1, and nothing
# is taken, where the words are wrong or FOLDER is another user's, and 10 where its tables do not name PEER. Whoever may
# not be the agent's user hands over by a drop folder (mta-drop). After a fault of the disk (4) the file mta.failed is
# made in FOLDER, and while it is there nothing is submitted or called: status 4.
set -u
name=$(basename "$0")
refuse() { echo "$name: $2" >&2; exit "$1"; }
if [ "${1:-}" = --help ]; then sed -n '2,10s/^# //p' "$0"; exit 0; fi
[ $# -eq 4 ] || { echo "usage: $name FOLDER PEER HOST PORT < APDU" >&2; exit 1; }
[ -d "$1" ] || refuse 1 "$1: no such folder"
owner=$(stat -c %U "$1")
# what another user made there, as a new spool, the agent could not write
[ "$(stat -c %u "$1")" = "$(id -u)" ] ||
  refuse 1 "$1 belongs to $owner, and this is $(id -un): as root, runuser -u $owner -- $name ..; else mta-drop --put"
cd "$1" || exit 1
[ -r mta.tables ] || refuse 8 "$1/mta.tables cannot be read"
cut -d ' ' -f 1,2 mta.tables | grep -qxF -- "peer $2" || refuse 10 "the tables of $1 name no peer $2"
seconds=10 fault=4
# `failed_if STATUS`: after a fault of the disk nothing is to call mta here again by itself
failed_if() { [ "$1" -ne "$fault" ] || : >>mta.failed; }
[ ! -e mta.failed ] ||
  refuse "$fault" "mta.failed is there, after a fault of the disk: look first, and remove it"
mta submit
status=$?
failed_if "$status"
[ "$status" -eq 0 ] || exit "$status"
exec 9>>call.lock
flock -n 9 || exit 0
[ -z "$(find call.failed -mmin -1 2>/dev/null)" ] || exit 0
said=$(timeout "$seconds" mta serve 1 "out:$2:$3:$4" 9>&-)
status=$?
failed_if "$status"
[ -z "$said" ] || echo "$said"
if [ "$status" -eq 0 ] && [ "$said" = "station 1 sessions 1 closed 1" ]; then
  rm -f call.failed
else
  touch call.failed
  echo "$name: the call of $2 did not get through; what is accepted goes with a later one" >&2
fi
exit 0
