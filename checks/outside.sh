#!/usr/bin/env bash
# Decodes every sample with `mta decode` and with Wireshark's dissector of P1, and compares identifiers, names,
# content types and the outcomes of reports. Run it at the top of the repository.
set -u
cd "$(dirname "$0")/.." || exit 2
. checks/program.bash
program tshark text2pcap python3
wrong=0
count=0
for sample in samples/*.ber; do
  count=$((count + 1))
  "$mta" decode <"$sample" >"$made/all" || { echo "$sample: mta decode ended with $?"; wrong=1; continue; }
  # of a recipient's line the indicators are left out, which the dissector shows bit by bit
  grep -E '^(message|probe|report|destination|subject|originator|content-type|recipient) ' "$made/all" \
    | sed -E 's/^(recipient [0-9]+) [01]+ /\1 /' >"$made/ours"
  od -Ax -tx1 -v "$sample" | text2pcap -q -l 147 - "$made/pcap" 2>/dev/null
  tshark -r "$made/pcap" -X lua_script:checks/outside.lua -V 2>/dev/null | python3 checks/outside.py >"$made/theirs"
  if ! diff "$made/ours" "$made/theirs" >"$made/difference"; then
    echo "$sample: < mta decode, > tshark"
    cat "$made/difference"
    wrong=1
  fi
done
echo "$count samples compared"
exit "$wrong"
