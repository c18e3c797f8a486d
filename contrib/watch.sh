#!/bin/sh
# Whether the agent in FOLDER is well: watch.sh FOLDER [SECONDS [OCTETS]]. A line for each thing that is wrong: a
# station that has ended, that does not listen, whose peer is not reached, that could not take a connection in the last
# SECONDS (300), or whose places are full of connections that bring nothing; a process that ended without a word;
# mta.failed, which a fault of the disk leaves; and a spool of more than OCTETS (402653184, three quarters of the most).
# Status 0: nothing is wrong; 1: something is; 2: the words are wrong, or nothing can be read. The manual, "What
# stations do", has the words of FOLDER/mta.stations.
set -u
if [ "${1:-}" = --help ]; then sed -n '2,8s/^# //p' "$0"; exit 0; fi
usage() { echo "usage: watch.sh FOLDER [SECONDS [OCTETS]]" >&2; exit 2; }
is_number() { case $1 in "" | *[!0-9]*) return 1 ;; esac; }
case ${1:-} in "" | -*) usage ;; esac
[ $# -le 3 ] && is_number "${2:-300}" && is_number "${3:-402653184}" || usage
folder=$1 seconds=${2:-300} most=${3:-402653184} status=0
wrong() { echo "$1"; status=1; }

if [ -e "$folder/mta.failed" ]; then
  wrong "$folder/mta.failed is there, so nothing begins the agent: look at the disk, see the manual, and remove it"
fi
if size=$(stat -L -c %s -- "$folder/mta.spool" 2>/dev/null) && [ "$size" -gt "$most" ]; then
  wrong "the spool has $size octets, more than $most"
fi
file=$folder/mta.stations
if [ ! -r "$file" ]; then
  [ "$status" -eq 0 ] || exit 1
  echo "$file cannot be read: has the agent ever served?"
  exit 2
fi
# a process that has the spool has its lock
has=yes
if [ -r "$folder/mta.spool" ] && flock -n -s 9 9<"$folder/mta.spool"; then has=no; fi
awk -v now="$(date +%s)" -v span="$seconds" -v has="$has" '
  function wrong(what) { print "station " $2 " " $3 " " $4 " " what; status = 1 }
  function why(  text, k) { for (k = 25; k <= last; k++) text = text " " $k; return "at " $24 ":" text }
  function lives(process) { return system("kill -0 " process " 2>/dev/null") == 0 }
  FNR == NR { if ($1 == "station" && $3 == "in") ins++; next }
  $1 != "station" { next }
  {
    last = NF; process = 0; how = "-"
    if (NF > 5 && $(NF - 5) == "process" && $(NF - 4) ~ /^[0-9]+$/) {
      last = NF - 6; process = $(NF - 4); how = $(NF - 2)
    }
  }
  how == "served" && has == "no" { next }
  how != "-" && (has == "no" || lives(process)) { wrong("has ended (" how "), at " $NF); next }
  process && has == "no" { gone[process] = 1; next }
  # another process has the spool, and its stations are not there yet
  process && !lives(process) { next }
  $3 == "in" && $6 == 0 { wrong("does not listen, " why()); next }
  $3 == "out" && $24 > $16 { wrong("is not reached, " why()); next }
  $3 == "in" && $24 > $6 && now - $24 < span { wrong("could not take a connection, " why()) }
  $8 >= 64 || ins && $8 >= 512 / ins { wrong("is full of connections that bring nothing") }
  END {
    for (process in gone) { print "process " process " has ended without a word: was it stopped?"; status = 1 }
    exit status
  }
' "$file" "$file" || status=1
exit "$status"
