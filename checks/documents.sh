#!/usr/bin/env bash
# The documents are true as far as a program can see: each name that they cite exists, docs/DEFINITIONS.md is what the
# heads of specs/ say, the manual pages are in order, one version stands everywhere, and the text blocks of README.md,
# docs/MANUAL.md and the pages are what the programs print. Run it at the top of the repository.
set -u
cd "$(dirname "$0")/.." || exit 2
. checks/program.bash
wrong=0
tools python3
python3 checks/names.py || wrong=1
python3 checks/definitions.py || wrong=1
if command -v mandoc >/dev/null; then
  # the pages cite one another, and none is installed
  said=$(for page in man/*; do mandoc -Tlint "$page"; done | grep -v 'referenced manual not found')
  [ -z "$said" ] || { echo "$said"; wrong=1; }
  echo "$(ls man | wc -l) manual pages looked at with mandoc"
else
  echo "skipped: mandoc is not on the PATH"
fi
if command -v man >/dev/null; then
  for page in man/*; do
    said=$(MANROFFOPT=-ww man --warnings=w -l "$page" 2>&1 >/dev/null)
    [ -z "$said" ] || { echo "man -l $page: $said"; wrong=1; }
  done
  echo "$(ls man | wc -l) manual pages looked at with man"
else
  echo "skipped: man is not on the PATH"
fi
version=$(sed -n '1s/.*(\(.*\)).*/\1/p' packaging/debian/changelog)
for document in README.md docs/MANUAL.md man/*; do
  grep -qF "version $version" "$document" || { echo "$document does not name version $version"; wrong=1; }
done
program
found mta_rehearse
rehearse=$found
found mta_audit
audit=$found
found mta_follow
follow=$found
found mta_store
python3 checks/texts.py "$mta" "$rehearse" "$audit" "$follow" "$found" || wrong=1
exit "$wrong"
