#!/usr/bin/env bash
# The figures of docs/PERFORMANCE.md, at the top of the repository: checks/speed.sh WHAT [WORDS..]. WHAT is a file of
# checks/speed, whose head says what is timed, beside what, and which words it takes; without WHAT their names are
# printed. `checks/speed.sh curves [FOLDER]` draws what grows, in out/speed where no folder is named.
#
# What is timed inside a crate is a part of one program, mta_bench. Where PROGRAMS names a folder with the programs of
# the crates, those are timed; else the proved ones, which are built if need be. Where SPEED_OUT names a folder, the
# figures of all that grows are left there.
set -u
cd "$(dirname "$0")/.." || exit 2
timed=yes
. checks/program.bash
export PYTHONDONTWRITEBYTECODE=1

# `has NAME VARIABLE` sets a variable of the figure to the path of a program
has() {
  local path
  path=$(realpath -m "${PROGRAMS:-/nowhere}")/$1
  [ -x "$path" ] || { tools rt; found "$1"; path=$found; }
  export "$2=$path"
}

# a folder below this one
below() {
  FOLDER=$(mktemp -d "$1/$what.XXXXXX") || exit 2
  trap 'rm -rf "$made" "$FOLDER"' EXIT
  export FOLDER
}

# a folder on a disk, where /tmp may be in memory, or in memory, where a sync takes no time
on_disk() { below /var/tmp; }
in_memory() { if [ -d /dev/shm ]; then below /dev/shm; else below /tmp; fi; }

# the decoder that asn1c makes of checks/speed/asn1c.asn1, or nothing where a tool is missing, which is said
decoder() {
  local tool
  export DECODER=
  for tool in asn1c cc; do
    command -v "$tool" >/dev/null || { echo "without asn1c's decoder: $tool is not on the PATH"; return 1; }
  done
  mkdir "$made/decoder"
  (
    cd "$made/decoder" || exit 1
    asn1c -fnative-types -fcompound-names "$OLDPWD/checks/speed/asn1c.asn1" || exit 1
    rm -f converter-sample.c
    cc -O2 -w -I. -o decoder "$OLDPWD/checks/speed/asn1c.c" ./*.c
  ) >"$made/log" 2>&1 || { echo "without asn1c's decoder, which was not built:"; tail -n 3 "$made/log"; return 1; }
  DECODER=$made/decoder/decoder
}

# what figures share
parts='agents|postfix|steps|tools'
if [ $# -eq 0 ]; then
  find checks/speed -name '*.py' -printf '%f\n' | sed 's/\.py$//' | grep -vxE "$parts" | sort
  exit 0
fi
what=$1
shift
[ "$what" != curves ] || exec bash checks/speed/curves.bash "$@"
if [[ $what == */* || $what =~ ^($parts)$ ]] || [ ! -e "checks/speed/$what.py" ]; then
  echo "there is no such figure; those there are: $(bash checks/speed.sh | xargs)" >&2
  exit 2
fi
tools python3
folder
export FOLDER=$made
case $what in
  asn1c) decoder || { echo "skipped: there is nothing to compare with"; exit 0; }; has mta MTA; has mta_bench BENCH ;;
  audit) on_disk; has mta MTA; has mta_audit AUDIT ;;
  compact | fan | first | relay | submit | two_way) on_disk; has mta MTA ;;
  decode | drill | instructions) has mta MTA ;;
  follow) on_disk; has mta_bench BENCH; has mta_follow FOLLOW ;;
  journal) on_disk; has mta_bench BENCH ;;
  layout) on_disk ;;
  open) on_disk; decoder; has mta MTA ;;
  pieces | relay_slow) in_memory; has mta MTA ;;
  rehearse) has mta_bench BENCH; has mta_rehearse REHEARSE ;;
  store) on_disk; has mta MTA; has mta_store STORE ;;
  *) has mta_bench BENCH ;;
esac
python3 "checks/speed/$what.py" "$@"
