#!/usr/bin/env bash
# checks/speed.sh curves [FOLDER]: draws curves of all that grows, as docs/speed has them, in out/speed where no folder
# is named. A figure leaves what it found in the folder that SPEED_OUT names, as in
# `SPEED_OUT=FOLDER checks/speed.sh open 1000 100000 1000000`; those of which the folder has none are taken here first,
# at their default sizes. gnuplot draws them.
set -u
cd "$(dirname "$0")/../.." || exit 2
command -v gnuplot >/dev/null || { echo "skipped: gnuplot is not on the PATH"; exit 0; }
folder=${1:-out/speed}
mkdir -p "$folder" || exit 1
out=$(cd "$folder" && pwd)
for name in submit journal relay open dues; do
  [ -e "$out/$name.dat" ] || { echo "== $name"; SPEED_OUT=$out bash checks/speed.sh "$name"; }
done

# draws the columns after the first of $1.dat: TITLE, what stands below and beside, further lines, a title a column
curve() {
  local file=$1 title=$2 below=$3 beside=$4 more=$5 column=2 plots=""
  shift 5
  [ -s "$out/$file.dat" ] || { echo "no figures for $file"; return; }
  for it in "$@"; do
    plots="$plots${plots:+, }'$out/$file.dat' using 1:(\$$column > 0 ? \$$column : 1/0) with linespoints lw 2 title '$it'"
    column=$((column + 1))
  done
  gnuplot <<PLOT || echo "not drawn: $file"
set terminal svg noenhanced size 860,400 font 'sans-serif,13' background 'white'
set output '$out/$file.svg'
set title '$title'
set xlabel '$below'
set ylabel '$beside'
set grid
set key outside right top
set logscale x
$more
plot $plots
PLOT
}
curve submit 'One mta submit beside what a spool holds' 'items that are held' 'milliseconds' 'unset logscale x; set yrange [0:*]' \
  'items wait for a peer' 'items are delivered'
curve journal 'An append beside plain writes' 'octets of a body' 'microseconds' 'set logscale y' \
  'append' 'two synced writes' 'one synced write'
curve relay 'Messages of 10 KiB handed over' 'associations or connections' 'messages a second' 'set xtics (1, 4, 16); set yrange [0:*]' \
  'mta' 'Postfix to Postfix' 'smtp-source to Postfix'
curve open 'Opening a spool' 'items' 'seconds of a processor' 'set logscale y' \
  'delivered' 'delivered, by asn1c' 'waiting' 'waiting, by asn1c'
curve memory 'Memory of a spool as a part of the octets of its file' 'octets of content' 'part' 'set yrange [0:*]' \
  'delivered' 'waiting'
curve dues 'One call beside items that wait for another peer' 'items' 'microseconds' 'set logscale y; set yrange [0.01:1000]' \
  'turn' 'batch_for' 'waiting'
ls "$out"/*.svg
