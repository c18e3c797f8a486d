#!/usr/bin/env bash
# Builds the package for Debian and puts its files into a folder: the program runs from there, each of its commands has
# a page, and lintian finds nothing in it, where that is installed. Run it at the top of the repository.
set -u
cd "$(dirname "$0")/.." || exit 2
. checks/program.bash
program dpkg-buildpackage dh dpkg-deb
found mta_rehearse
found mta_audit
found mta_follow
found mta_store
wrong=0
packaging/build.sh --program "$mta" "$made/package" >"$made/said" || { echo "the package is not built"; exit 1; }
package=$(ls "$made"/package/*.deb)
dpkg-deb -x "$package" "$made/root" || exit 1
cp samples/mta.tables "$made/mta.tables"
got=$(cd "$made" && root/usr/bin/mta submit <"$OLDPWD/samples/message.ber")
[ "$got" = "accepted 1" ] || { echo "the installed program: $got"; wrong=1; }
"$made/root/usr/bin/mta-log" "$made" >"$made/log" || { echo "the installed mta-log ended with $?"; wrong=1; }
grep -q " deliver item 1 " "$made/log" || { echo "the installed mta-log: $(cat "$made/log")"; wrong=1; }
cp samples/network.tables "$made/mta.tables"
got=$(cd "$made" && root/usr/bin/mta_rehearse GOLD-1 'C=GB;A=EAST;S=MORSE' | tail -n 1)
[ "$got" = "at EAST mailbox morse" ] || { echo "the installed mta_rehearse: $got"; wrong=1; }
got=$(cd "$made" && cp mta.spool copy.spool && root/usr/bin/mta_audit mta.spool copy.spool; echo "status $?")
[ "$got" = "status 0" ] || { echo "the installed mta_audit: $got"; wrong=1; }
got=$(cd "$made" && root/usr/bin/mta_store list watt | sed -E 's/[0-9]{12}Z/T/')
[ "$got" = "1 new T item 1" ] || { echo "the installed mta_store: $got"; wrong=1; }
said=$(python3 checks/links.py "$made/root/usr/share/doc/mta") || { echo "links lead nowhere: $said"; wrong=1; }
proved=$(sed -n 's/^programs //p' "$made/root/usr/share/doc/mta/BUILT")
shown=$(dpkg-deb -f "$package" Version Description)
case $proved,$shown in
  UNPROVED,*~unproved*UNPROVED*) ;;
  proved,*[Uu][Nn][Pp][Rr][Oo][Vv][Ee][Dd]*) echo "the package of proved programs says: $shown"; wrong=1 ;;
  proved,*) ;;
  *) echo "the package of $proved programs says: $shown"; wrong=1 ;;
esac
for command in "$made"/root/usr/bin/*; do
  name=$(basename "$command")
  [ -e "$made/root/usr/share/man/man1/$name.1.gz" ] || { echo "$name has no page"; wrong=1; }
done
for file in lib/systemd/system/mta@.service usr/lib/sysusers.d/mta.conf usr/lib/tmpfiles.d/mta.conf; do
  [ -e "$made/root/$file" ] || { echo "no $file in the package"; wrong=1; }
done
if command -v lintian >/dev/null; then
  said=$(lintian --fail-on error,warning "$package" 2>/dev/null) || wrong=1
  [ -z "$said" ] || echo "$said"
else
  echo "skipped: lintian is not on the PATH"
fi
echo "$(basename "$package") is built, and its files run from a folder"
exit "$wrong"
