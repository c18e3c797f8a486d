#!/usr/bin/env bash
# install.bash MTA FOLDER, for checks/contrib.sh: what contrib/install.sh puts in place is whole, its units are in
# order, its tools run from there, and --remove takes all of it out again.
set -u
mta=$1 root=$2/root wrong=0
fails() { echo "install.sh: $1"; wrong=1; }
DESTDIR=$root contrib/install.sh --program "$mta" /usr || exit 1
for tool in "$root"/usr/bin/*; do
  name=$(basename "$tool")
  [ -e "$root/usr/share/man/man1/$name.1" ] || fails "$name has no page"
  # no word of these begins with -
  case $name in mta | mta_rehearse | mta_audit | mta_follow | mta_store) continue ;; esac
  "$tool" --help >/dev/null || fails "$name --help ended with $?"
done
said=$(python3 checks/links.py "$root/usr/share/doc/mta") || fails "links of documents lead nowhere: $said"
grep -qx 'programs \(proved\|UNPROVED\)' "$root/usr/share/doc/mta/BUILT" || fails "BUILT does not say what is proved"
for name in mta-message mta-tables-check mta-drop mta-submit; do
  said=$("$root/usr/bin/$name" 2>&1 </dev/null)
  case $said in "usage: $name "*) ;; *) fails "$name calls itself otherwise: $said" ;; esac
done
grep -rq '@BIN@\|@LIB@' "$root/usr/lib" && fails "a unit names no place"
if command -v systemd-analyze >/dev/null; then
  # the units' programs and pages are looked for at their places, so they are put there for this, below a prefix that
  # systemd need not know
  place=$2/prefix
  contrib/install.sh --program "$mta" "$place" >/dev/null || fails "a prefix of its own: status $?"
  units=$place/lib/systemd/system
  said=$(MANPATH=$place/share/man: systemd-analyze verify --man=yes \
    "$units"/mta{@,-failed@,-again@,-standby@,-osi-out@,-osi-in@,-log@}.service \
    "$units"/mta-{call,watch,follow,archive,mail}@.timer "$units"/mta-drop@.path 2>&1) || said="status $?: $said"
  [ -z "$said" ] || fails "systemd-analyze verify: $said"
  for unit in mta@GOLD mta-call@GOLD mta-watch@GOLD mta-failed@mta@GOLD.service mta-follow@GOLD mta-standby@GOLD \
    mta-log@GOLD mta-archive@GOLD mta-drop@GOLD mta-osi-out@GOLD mta-osi-in@GOLD mta-mail@GOLD; do
    # 20 is an exposure of 2.0, "OK"
    systemd-analyze security --offline=true --threshold=20 --root="$root" "$unit.service" >/dev/null 2>&1 ||
      fails "systemd-analyze security: $unit is exposed"
  done
  # root begins units, with nothing else that root may
  systemd-analyze security --offline=true --threshold=30 --root="$root" mta-again@GOLD.service >/dev/null 2>&1 ||
    fails "systemd-analyze security: mta-again@GOLD is exposed"
  echo "the units are in order"
else
  echo "skipped: systemd-analyze is not on the PATH"
fi
# what mta-why says, and whether it leaves mta.failed
for row in 0,,0,no 4,,2,yes 5,,2,no 15,,2,no 124,timer,0,no 4,timer,2,yes 1,timer,2,no 15,standby,0,no 4,standby,2,yes \
  16,standby,2,no 1,follow,2,no 4,follow,2,yes 15,follow,0,no; do
  IFS=, read -r status word lines makes <<<"$row"
  mkdir "$2/why"
  said=$(top=$PWD && cd "$2/why" && EXIT_CODE=exited EXIT_STATUS=$status sh "$top/contrib/systemd/mta-why" $word | wc -l)
  made=no
  [ ! -e "$2/why/mta.failed" ] || made=yes
  [ "$said $made" = "$lines $makes" ] || fails "mta-why $word of $status: $said lines, mta.failed: $made"
  rm -r "$2/why"
done
if command -v bash >/dev/null; then
  # what is left to type of a line, whose words bash cuts at colons
  completed() {
    bash -c '. contrib/completion/mta; . contrib/completion/watching; cd contrib/sample/GOLD
      read -ra COMP_WORDS <<<"${1//:/ : }"
      case $1 in *" ") COMP_WORDS+=("") ;; esac
      COMP_LINE=$1 COMP_POINT=${#1} COMP_CWORD=$((${#COMP_WORDS[@]} - 1))
      "_${COMP_WORDS[0]//-/_}"
      echo "${COMPREPLY[*]}"' completed "$1"
  }
  while IFS='|' read -r line left; do
    [ "$(completed "$line")" = "$left" ] || fails "completion of '$line': $(completed "$line")"
  done <<'LINES'
mta s|submit spool serve
mta read |watt bell
mta serve |1 1000000
mta serve 1 |in: out:GOLD-POST: out:SILVER-1:
mta serve 1 in:1 out:S|SILVER-1:
mta-look . read w|watt
mta-box . |list fetch delete
mta-box . fetch b|bell
mta-fetch --a|--as
mta-osi o|out
LINES
fi
DESTDIR=$root contrib/install.sh --remove /usr >/dev/null || fails "--remove ended with $?"
left=$(find "$root" ! -type d)
[ -z "$left" ] || fails "--remove leaves $left"
[ "$wrong" -eq 0 ] && echo "install.sh puts everything in place, and takes it out again"
exit "$wrong"
