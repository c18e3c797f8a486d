#!/usr/bin/env bash
# Puts mta in place, or takes it out again: contrib/install.sh [--remove] [--program FILE] [PREFIX], /usr/local where no
# PREFIX is named. It installs the programs mta, mta_rehearse, mta_audit, mta_follow and mta_store, the tools beside
# them, the manual pages, the completion for bash, the units for systemd, the documents and the samples. FILE is the
# program mta, and the others are those beside it; else each is the proved one that `rt ci` leaves at
# crates/NAME/out/NAME or, where that is absent, the unproved one that ./demo leaves at out/unproved/NAME. With DESTDIR
# in the environment all goes below that folder, as for a package. share/doc/mta/BUILT says of which version, commit and
# kit the programs are, and whether they are proved. --remove leaves what an agent has: /var/lib/mta, /etc/mta,
# /var/spool/mta-drop and the user.
set -eu
top=$(cd "$(dirname "$0")/.." && pwd)
remove=no program="" prefix=/usr/local
while [ $# -gt 0 ]; do
  case $1 in
    --help) sed -n '2,10s/^# //p' "$0"; exit 0 ;;
    --remove) remove=yes ;;
    --program) program=${2:?--program FILE}; shift ;;
    -*) echo "install.sh: $1 is no option; see --help" >&2; exit 1 ;;
    *) prefix=$1 ;;
  esac
  shift
done
case $prefix in /*) ;; *) echo "install.sh: PREFIX is a path from the root, and not $prefix" >&2; exit 1 ;; esac
root=${DESTDIR:-}$prefix
share=$prefix/share/mta
units="mta@.service mta-call@.service mta-call@.timer mta-watch@.service mta-watch@.timer mta-failed@.service
  mta-again@.service mta-follow@.service mta-follow@.timer mta-standby@.service mta-drop@.path mta-drop@.service
  mta-osi-out@.service mta-osi-in@.service mta-mail@.service mta-mail@.timer"
# the tools as commands, each with its file
tools="mta-log=mta-log mta-look=mta-look mta-apdu=mta-apdu mta-content=mta-content mta-ipm=mta-ipm check-mta=check-mta
  mta-message=message.py mta-fetch=fetch.py mta-tables-check=tables-check.py mta-submit=submit.sh
  mta-watch=watch.sh mta-drop=mta-drop mta-report=mta-report mta-mail=mta-mail mta-mail-deliver=mta-mail-deliver"
# commands whose completion stands with that of mta
with_mta="mta-osi mta-mail mta-mail-deliver"
# commands whose completion is that of all tools
completed="mta-message mta-ipm mta-report mta-content mta-submit mta-drop mta-tables-check mta-apdu mta_store mta_follow
  mta_audit"
# those by which an agent is watched and its mailboxes are read, and their completion
watching="mta-log mta-look check-mta mta-box mta-fetch mta-archive mta-trace"
tools="$tools mta-box=mta-box mta-archive=mta-archive mta-trace=mta-trace"
units="$units mta-log@.service mta-archive@.service mta-archive@.timer"

if [ "$remove" = yes ]; then
  for tool in $tools; do rm -f "$root/bin/${tool%%=*}" "$root/share/man/man1/${tool%%=*}.1"; done
  for unit in $units; do rm -f "$root/lib/systemd/system/$unit"; done
  for page in "$top"/man/*; do rm -f "$root/share/man/man${page##*.}/$(basename "$page")"; done
  for name in mta mta-tools $with_mta $completed $watching; do
    rm -f "$root/share/bash-completion/completions/$name"
  done
  rm -rf "$root/share/mta" "$root/share/doc/mta"
  for name in mta mta_rehearse mta_audit mta_follow mta_store mta-osi; do rm -f "$root/bin/$name"; done
  rm -f "$root/lib/sysusers.d/mta-mail.conf" "$root/lib/tmpfiles.d/mta-mail.conf"
  rm -f "$root/lib/sysusers.d/mta.conf" "$root/lib/tmpfiles.d/mta.conf"
  echo "mta is taken out of $prefix; /var/lib/mta, /etc/mta and the user mta are left"
  exit 0
fi

. "$top/contrib/programs.bash"

# the file $2 as $1 below the prefix, with mode $3
put() { install -D -m "${3:-644}" "$2" "$root/$1"; }
# the same, with the places of this installation
put_filled() {
  mkdir -p "$(dirname "$root/$1")"
  sed -e "s,@BIN@,$prefix/bin,g" -e "s,@LIB@,$share,g" "$2" >"$root/$1"
  chmod 644 "$root/$1"
}

put bin/mta "$program" 755
put bin/mta_rehearse "$rehearse" 755
put bin/mta_audit "$audit" 755
put bin/mta_follow "$follow" 755
put bin/mta_store "$store" 755
for tool in $tools; do put "share/mta/${tool#*=}" "$top/contrib/${tool#*=}" 755; done
for file in "$top"/contrib/lib/*.py; do put "share/mta/lib/$(basename "$file")" "$file"; done
for name in mta-why mta-again; do put "share/mta/$name" "$top/contrib/systemd/$name" 755; done
put share/mta/mta-osi "$top/contrib/mta-osi" 755
for file in "$top"/contrib/osi/*.py; do put "share/mta/osi/$(basename "$file")" "$file"; done
mkdir -p "$root/bin" && ln -sf ../share/mta/mta-osi "$root/bin/mta-osi"
for file in "$top"/contrib/mail/*.py; do put "share/mta/mail/$(basename "$file")" "$file"; done
put lib/sysusers.d/mta-mail.conf "$top/contrib/systemd/mta-mail.sysusers"
put lib/tmpfiles.d/mta-mail.conf "$top/contrib/systemd/mta-mail.tmpfiles"
for tool in $tools; do
  ln -sf "../share/mta/${tool#*=}" "$root/bin/${tool%%=*}"
  mkdir -p "$root/share/man/man1"
  echo ".so man1/mta-tools.1" >"$root/share/man/man1/${tool%%=*}.1"
done
for name in mta-fetch=mta-box mta-archive=mta-log mta-trace=mta-log; do
  echo ".so man1/${name#*=}.1" >"$root/share/man/man1/${name%%=*}.1"
done
for page in "$top"/man/*; do put "share/man/man${page##*.}/$(basename "$page")" "$page"; done
echo ".so man1/mta-mail.1" >"$root/share/man/man1/mta-mail-deliver.1"
put share/bash-completion/completions/mta "$top/contrib/completion/mta"
for name in $with_mta; do ln -sf mta "$root/share/bash-completion/completions/$name"; done
put share/bash-completion/completions/mta-tools "$top/contrib/completion/mta-tools"
for name in $completed; do ln -sf mta-tools "$root/share/bash-completion/completions/$name"; done
put share/bash-completion/completions/mta-log "$top/contrib/completion/watching"
for name in $watching; do
  [ "$name" = mta-log ] || ln -sf mta-log "$root/share/bash-completion/completions/$name"
done
put share/doc/mta/sudoers "$top/contrib/sudoers"
put share/doc/mta/grafana/mta.json "$top/contrib/grafana/mta.json"
for unit in $units; do put_filled "lib/systemd/system/$unit" "$top/contrib/systemd/$unit"; done
put lib/sysusers.d/mta.conf "$top/contrib/systemd/mta.sysusers"
put lib/tmpfiles.d/mta.conf "$top/contrib/systemd/mta.tmpfiles"
python3 "$top/contrib/documents.py" "$top" "$root/share/doc/mta"
built >"$root/share/doc/mta/BUILT"
chmod 644 "$root/share/doc/mta/BUILT"

if [ -z "${DESTDIR:-}" ]; then
  echo "mta is in $prefix, its documents are in $prefix/share/doc/mta."
  if grep -qx 'programs UNPROVED' "$root/share/doc/mta/BUILT"; then
    echo "Its programs are UNPROVED: they were built without their proofs, for a first look."
  fi
  case $prefix in
    /usr | /usr/local) echo "For agents under systemd go on with MANUAL.md there, \"Serving\"." ;;
    *) echo "Its commands are found after: PATH=$prefix/bin:\$PATH" ;;
  esac
fi
