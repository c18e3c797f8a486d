#!/usr/bin/env bash
# The bridge mta-osi (contrib/mta-osi): what docs/OSI.md says of it. Run it at the top of the repository.
#
#     checks/osi.sh [--program FILE] [WHAT [WORDS..]]
#
# All, or one of these; FILE is the program mta, with mta_audit beside it.
#
#   values [N]            what the codecs write they read: N values a layer (10000)
#   shapes                shapes of other makers' octets are taken, refused or end both sides
#   map                   the file of the map after stops, cuts and damage
#   hostile [N]           each cut, N of nine changes of each octet (3), and other orders of a session
#   live                  a thousand connections that say nothing, and a true peer among them
#   half-open             an old connection that stalls while the lane goes on: each message once
#   captures              connections without breaks, as tshark and a second reader read them: nothing is malformed
#   kills [M [B [K]]]     two agents exchange M messages (80) and their reports over B breaks of connections at random
#                         octets (80) and K kills of bridges and agents (24): each once. A quarter of them each in
#                         pieces, in one piece, in EXTERNALs of indefinite length, and with a reference for each
#                         connection. The full counts are 1000 1000 300
# shellcheck disable=SC2154,SC2017
set -u
cd "$(dirname "$0")/.." || exit 2
. checks/program.bash
export PYTHONDONTWRITEBYTECODE=1
usage() { sed -n '2,18s/^# \{0,1\}//p' "$0"; }
osi=checks/osi given=""
case ${1:-} in
  -h | --help) usage; exit 0 ;;
  --program) given=$(realpath "${2:?--program FILE}") || exit 2; shift 2 ;;
esac
what=${1:-all}
[ $# -eq 0 ] || shift
for word in "$@"; do
  [[ $word =~ ^[0-9]+$ ]] || { usage >&2; exit 2; }
done

# the program, and a folder for what is made
begin() {
  if [ -n "$given" ]; then
    tools python3
    folder
    mta=$given
  else
    program python3
    found mta_audit
    # the agents have both side by side
    mkdir "$made/bin"
    ln -s "$mta" "$made/bin/mta"
    ln -s "$found" "$made/bin/mta_audit"
    mta=$made/bin/mta
  fi
}

# four worlds side by side, each with a quarter of the counts
kills() {
  local messages=${1:-80} breaks=${2:-80} kills=${3:-24} seed=0 wrong=0 words case jobs=()
  for words in "" whole indefinite references; do
    seed=$((seed + 1))
    case=$made/kills-$seed
    # shellcheck disable=SC2086
    python3 $osi/kills.py "$mta" "$case" $(((messages + 7) / 8 * 2)) $(((breaks + 3) / 4)) $(((kills + 3) / 4)) $seed \
      "$within" $words >"$case.log" 2>&1 &
    jobs+=($!)
  done
  for seed in 1 2 3 4; do
    wait "${jobs[seed - 1]}" || wrong=1
    tail -n 1 "$made/kills-$seed.log"
    [ "$wrong" -eq 0 ] || tail -n 20 "$made/kills-$seed.log"
  done
  return "$wrong"
}

captures() {
  if command -v tshark >/dev/null && command -v text2pcap >/dev/null; then
    python3 $osi/captures.py "$mta" "$made/captures" $osi/reader.py
  else
    echo "skipped: tshark is not on the PATH"
  fi
}

live() { mkdir "$made/live" && python3 $osi/live.py "$made/live"; }
half_open() { python3 $osi/half_open.py "$mta" "$made/half-open"; }

all() {
  local wrong=0 others
  begin
  within=540
  { kills; } >"$made/kills" 2>&1 &
  others=$!
  python3 $osi/values.py || wrong=1
  python3 $osi/shapes.py || wrong=1
  { mkdir "$made/map" && python3 $osi/maps.py "$made/map"; } || wrong=1
  python3 $osi/hostile.py || wrong=1
  captures || wrong=1
  half_open || wrong=1
  live || wrong=1
  wait "$others" || wrong=1
  cat "$made/kills"
  return "$wrong"
}

within=86400
case $what in
  all) all ;;
  values) tools python3; python3 $osi/values.py "$@" ;;
  shapes) tools python3; python3 $osi/shapes.py ;;
  map) tools python3; folder; python3 $osi/maps.py "$made" ;;
  hostile) tools python3; python3 $osi/hostile.py "$@" ;;
  live) tools python3; folder; live ;;
  half-open) begin; half_open ;;
  captures) begin; captures ;;
  kills) begin; kills "$@" ;;
  *) echo "osi.sh: there is no $what" >&2; usage >&2; exit 2 ;;
esac
