#!/usr/bin/env bash
# Builds the package for Debian of programs that are built: packaging/build.sh [--program FILE] [FOLDER], into FOLDER
# (out/package). FILE is the program mta, and mta_rehearse, mta_audit, mta_follow and mta_store are those beside it;
# else each is the proved one that `rt ci` leaves at crates/NAME/out/NAME or, where that is absent, the unproved one
# that ./demo leaves at out/unproved/NAME. A package of programs that are not those of the gate says UNPROVED, and its
# version ends in ~unproved. It needs dpkg-dev and debhelper.
set -eu
top=$(cd "$(dirname "$0")/.." && pwd)
program=""
if [ "${1:-}" = --help ]; then sed -n '2,7s/^# //p' "$0"; exit 0; fi
if [ "${1:-}" = --program ]; then program=$2; shift 2; fi
to=${1:-$top/out/package}
for tool in dpkg-buildpackage dh; do
  command -v "$tool" >/dev/null || { echo "build.sh: $tool is not on the PATH (dpkg-dev, debhelper)" >&2; exit 2; }
done
. "$top/contrib/programs.bash"
version=$(sed -n '1s/.*(\(.*\)).*/\1/p' "$top/packaging/debian/changelog")
made=$(mktemp -d)
trap 'rm -rf "$made"' EXIT
source=$made/mta-$version
mkdir -p "$source" "$to"
cp -r "$top/contrib" "$top/man" "$top/docs" "$top/samples" "$top/README.md" "$source/"
cp -r "$top/packaging/debian" "$source/debian"
find "$source" -name __pycache__ -prune -exec rm -rf {} +
cp "$program" "$source/mta"
cp "$rehearse" "$source/mta_rehearse"
cp "$audit" "$source/mta_audit"
cp "$follow" "$source/mta_follow"
cp "$store" "$source/mta_store"
built >"$source/BUILT"
if grep -qx 'programs UNPROVED' "$source/BUILT"; then
  # a lower version than the proved one of the same number, which takes its place then
  sed -i "1s/($version)/($version~unproved)/" "$source/debian/changelog"
  sed -i -e '/^Description:/s/$/, UNPROVED/' -e '/^ All are written in Rattle/,/^ contract before it is built/d' \
    "$source/debian/control"
  sed -i 's/^ \.$/ UNPROVED: the programs of this package are written in Rattle, and were built\n without proofs.\n ./' \
    "$source/debian/control"
fi
(cd "$source" && dpkg-buildpackage --build=binary --no-sign) >"$made/log" 2>&1 || { cat "$made/log" >&2; exit 1; }
cp "$made"/mta_*.deb "$to/"
echo "$to/$(basename "$made"/mta_*.deb), of $program"
