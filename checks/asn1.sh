#!/usr/bin/env bash
# docs/p1.asn1 is a module that asn1c compiles, and the decoder that it makes of it reads the samples. Left out are
# those in indefinite lengths, where asn1c's decoder takes no strings in segments of the forms that X.690 has for them,
# and one whose parts that mta keeps unread have other types than the standard's. Run it at the top of the repository.
set -u
cd "$(dirname "$0")/.." || exit 2
. checks/program.bash
top=$PWD
tools asn1c cc
folder
cd "$made" || exit 2
asn1c -fcompound-names -pdu=Apdu "$top/docs/p1.asn1" >log 2>&1 || { cat log; exit 1; }
cc -w -DPDU=Apdu -I. -o decoder ./*.c >log 2>&1 || { tail -n 3 log; exit 1; }
wrong=0 count=0
for sample in "$top"/samples/*.ber; do
  case $sample in *-indefinite.ber | */report-full.ber) continue ;; esac
  count=$((count + 1))
  ./decoder -iber "$sample" >text 2>&1 || { echo "$sample is not read by docs/p1.asn1: $(tail -n 1 text)"; wrong=1; }
done
echo "docs/p1.asn1 is compiled, and reads $count samples"
exit "$wrong"
