# For checks/systemd.sh, with mta, made and top in the environment: `systemd.bash boot` starts a systemd in the
# namespaces in which it runs. That one starts `systemd.bash steps`, which writes what it finds into $made/said.
# shellcheck shell=bash disable=SC2154,SC2016
set -u
export PATH=/usr/local/bin:/usr/bin:/bin:/usr/sbin:/sbin
mine=/run/mta-units # the units that the check needs itself

# a layer of memory above the host's files becomes the root, and systemd its first process
boot() {
  set -e
  mount --make-rprivate /
  local layer=$made/layer it
  mkdir "$layer"
  mount -t tmpfs tmpfs "$layer"
  mkdir "$layer/upper" "$layer/work" "$layer/root"
  mount -t overlay overlay -o "lowerdir=/,upperdir=$layer/upper,workdir=$layer/work" "$layer/root"
  cd "$layer/root"
  mount --rbind /dev dev
  mount -t sysfs sysfs sys
  mount -t proc proc proc
  mount --bind -o ro proc/sys proc/sys
  mount -t tmpfs -o mode=755 tmpfs run
  for it in "$top" "$made"; do
    mkdir -p ".$it"
    mount --bind "$it" ".$it"
  done
  mount -t tmpfs tmpfs sys/fs/cgroup
  if [ -e /sys/fs/cgroup/cgroup.procs ]; then
    mount -t cgroup2 cgroup2 sys/fs/cgroup
  else
    mkdir sys/fs/cgroup/systemd sys/fs/cgroup/unified
    mount -t cgroup -o none,name=systemd cgroup sys/fs/cgroup/systemd
    mount -t cgroup2 cgroup2 sys/fs/cgroup/unified
  fi
  rm -rf etc/systemd/system/*
  units ".$mine"
  mkdir old
  pivot_root . old
  umount -l old
  ip link set lo up
  exec env -i container=lxc mta="$mta" made="$made" top="$top" PATH="$PATH" SYSTEMD_GENERATOR_PATH=/nowhere \
    SYSTEMD_UNIT_PATH="/etc/systemd/system:$mine:/usr/local/lib/systemd/system" /lib/systemd/systemd --system \
    --show-status=0 --unit=mta-check.target
}

# the units of a host that is up, with nothing in them, and those of the check
units() {
  local it
  mkdir -p "$1"
  for it in sysinit basic multi-user timers shutdown mta-check; do
    printf '[Unit]\nDescription=%s\n' "$it" >"$1/$it.target"
  done
  echo "Wants=mta-check.service" >>"$1/mta-check.target"
  cp /lib/systemd/system/systemd-journald{.service,.socket,-dev-log.socket} "$1"
  cat >"$1/mta-check.service" <<UNIT
[Unit]
DefaultDependencies=no
Requires=systemd-journald.socket systemd-journald-dev-log.socket
After=systemd-journald.socket systemd-journald-dev-log.socket
[Service]
Type=oneshot
Environment=mta=$mta made=$made top=$top HOME=/root
WorkingDirectory=$top
ExecStart=/bin/bash $top/checks/systemd.bash steps
StandardOutput=file:$made/said
StandardError=inherit
ExecStopPost=/bin/kill -s RTMIN+13 1
UNIT
}

wrong=0
fails() { echo "$1"; wrong=1; }
# `until_so SECONDS COMMAND..`: waits until the command succeeds
until_so() {
  local end=$((SECONDS + $1))
  shift
  until "$@" >/dev/null 2>&1; do [ "$SECONDS" -lt "$end" ] || return 1; sleep 0.2; done
}
shows() { systemctl show -P "$2" "$1"; }
is() { [ "$(shows "$1" "$2")" = "$3" ]; }
journal_has() { journalctl --sync; journalctl -u "$1" -o cat --no-pager | grep -qF -- "$2"; }
# a folder of an agent, with these tables and stations
agent() {
  install -d -o mta -g mta -m 750 "/var/lib/mta/$1"
  install -o mta -g mta -m 600 "$2" "/var/lib/mta/$1/mta.tables"
  echo "$3" >"/etc/mta/$1.conf"
}

steps() {
  local sample=$top/contrib/sample block
  contrib/install.sh --program "$mta" >/dev/null || fails "install.sh ended with $?"
  # the manual's block, in a folder with the tables of GOLD
  mkdir -p /root/try
  cp "$sample/GOLD/mta.tables" /root/try/
  block=$(sed -n '/^\*\*Under systemd/,/^### Handing/s/^    //p' docs/MANUAL.md)
  [ -n "$block" ] || fails "the manual has no block"
  (cd /root/try && bash -e -c "$block") || fails "the manual's block ended with $?"
  until_so 20 test -s /var/lib/mta/GOLD/mta.stations || fails "GOLD does not serve: $(systemctl status mta@GOLD)"
  is mta@GOLD ActiveState active || fails "GOLD is $(shows mta@GOLD ActiveState)"
  [ "$(stat -c '%U %a' /var/lib/mta/GOLD/mta.spool /var/lib/mta/GOLD/mta.stations | sort -u)" = "mta 600" ] ||
    fails "others may read what GOLD has: $(ls -l /var/lib/mta/GOLD)"
  [ -e /etc/systemd/system/multi-user.target.wants/mta@GOLD.service ] || fails "GOLD is not enabled"
  watched
  called
  again
  daily
  half
  stays_down
  full
  disk
  stopped
  [ "$wrong" -eq 0 ] && echo "the units do what they have to"
}

# the stations are looked at once a minute: one that is well, and one whose port is another's
watched() {
  systemctl start mta-watch@GOLD || fails "mta-watch@GOLD: $(journalctl -u mta-watch@GOLD -o cat --no-pager)"
  agent TWICE "$top/contrib/sample/GOLD/mta.tables" "STATIONS=in:10001"
  systemctl start mta@TWICE
  until_so 10 grep -q 'error 98' /var/lib/mta/TWICE/mta.stations || fails "TWICE has the port of GOLD"
  systemctl start mta-watch@TWICE 2>/dev/null && fails "mta-watch@TWICE is well"
  journal_has mta-watch@TWICE "station 1 in 10001 does not listen" || fails "mta-watch@TWICE says nothing"
  systemctl stop mta@TWICE
  systemctl start mta-watch@GOLD.timer || fails "mta-watch@GOLD.timer is not started"
}

# SILVER calls GOLD, by the name of its host, and what it had to send is delivered
called() {
  agent SILVER "$top/contrib/sample/SILVER/mta.tables" "STATIONS=out:GOLD-1:localhost:10001"
  echo LIMIT=300 >>/etc/mta/SILVER.conf
  echo Hello | mta-message 'C=US;A=SILVER;S=MORSE' 'C=GB;A=GOLD;S=WATT' N0001 >/root/try/apdu
  runuser -u mta -- sh -c 'cd /var/lib/mta/SILVER && mta submit' </root/try/apdu >/dev/null || fails "mta submit: $?"
  # the host is up for longer than OnBootSec says, so the timer calls at once
  systemctl start mta-call@SILVER.timer
  until_so 40 sh -c 'mta-log /var/lib/mta/GOLD | grep -q " deliver item 1 "' ||
    fails "nothing is delivered: $(journalctl -u mta-call@SILVER -o cat --no-pager)"
  until_so 20 is mta-call@SILVER ActiveState inactive || fails "the call is $(shows mta-call@SILVER ActiveState)"
  is mta-call@SILVER Result success || fails "the call: $(shows mta-call@SILVER Result)"
  journal_has mta-call@SILVER "station 1 sessions 1 closed 1" || fails "the call's line is not in the journal"
  # and it calls again 60 seconds after the call's end
  local last next
  last=$(shows mta-call@SILVER InactiveEnterTimestampMonotonic)
  next=$(systemd-analyze timespan "$(shows mta-call@SILVER.timer NextElapseUSecMonotonic)" | awk '/s: / { print $2 }')
  [ $((next - last)) -eq 60000000 ] || fails "the next call is $((next - last)) microseconds after the last one"
  systemctl stop mta-call@SILVER.timer
}

# one that was killed is begun again
again() {
  local first
  first=$(shows mta@GOLD MainPID)
  systemctl kill -s KILL mta@GOLD
  until_so 20 sh -c "systemctl is-active mta@GOLD && [ \"\$(systemctl show -P MainPID mta@GOLD)\" != $first ]" ||
    fails "GOLD is not begun again after SIGKILL"
}

# `instead NAME COMMAND`: the agent's unit runs this command in place of its program
instead() {
  mkdir -p "/etc/systemd/system/mta@$1.service.d"
  printf '[Service]\nExecStart=\nExecStart=/bin/sh -c "%s"\n' "$2" >"/etc/systemd/system/mta@$1.service.d/instead.conf"
  systemctl daemon-reload
}

# `has_failed NAME STATUS TEXT..`: the agent's unit has failed with this status, its journal has these texts, and
# mta-failed@ was started
has_failed() {
  local name=$1 text
  until_so 20 is "mta@$name" ActiveState failed || fails "$name is $(shows "mta@$name" ActiveState)"
  is "mta@$name" ExecMainStatus "$2" || fails "$name has status $(shows "mta@$name" ExecMainStatus)"
  shift
  for text in "status $1: " "${@:2}"; do
    journal_has "mta@$name" "$text" || fails "the journal of $name has no '$text'"
  done
  until_so 10 is "mta-failed@mta@$name.service.service" ExecMainStatus 0
  journalctl --sync
  journalctl -t mta -p crit -o cat --no-pager | grep -qF "mta@$name.service has failed" ||
    fails "no line says that $name has failed"
}

# after a bad line of the tables it stays down, says why, and mta-failed@ is started
stays_down() {
  agent BAD /dev/null "STATIONS=in:10003"
  systemctl start mta@BAD
  has_failed BAD 2 "tables line 1 Missing" "it is not begun again by itself"
  sleep 6 # it would be begun again after 5 seconds
  is mta@BAD NRestarts 0 || fails "BAD was begun again"
  is mta@BAD ActiveState failed || fails "BAD was begun again"
}

# where the spool is full it is begun anew once, and then stays down
full() {
  agent FULL "$top/contrib/sample/GOLD/mta.tables" "STATIONS=in:10004"
  instead FULL "echo >>begun; echo spool full 268435451 22; exit 5"
  systemctl start mta@FULL
  until_so 20 is_begun FULL 2 || fails "FULL is not begun anew"
  has_failed FULL 5 "spool full 268435451 22"
  journal_has mta-again@FULL "an opening may make room" || fails "nothing says that FULL is begun anew"
  sleep 6
  is_begun FULL 2 || fails "FULL was begun $(wc -l <"/var/lib/mta/FULL/begun") times"
}
is_begun() { [ "$(wc -l <"/var/lib/mta/$1/begun")" -eq "$2" ]; }

# after a fault of the disk nothing begins it again, neither its unit nor one that calls, until mta.failed is removed
disk() {
  local it
  agent DISK "$top/contrib/sample/GOLD/mta.tables" "STATIONS=in:10006"
  instead DISK "echo >>begun; echo disk fault; exit 4"
  systemctl start mta@DISK
  has_failed DISK 4 "disk fault" "nothing begins it again while /var/lib/mta/DISK/mta.failed is there"
  [ "$(stat -c '%U %a' /var/lib/mta/DISK/mta.failed)" = "mta 600" ] || fails "mta.failed is $(ls -l /var/lib/mta/DISK)"
  for it in mta@DISK mta-call@DISK mta-standby@DISK mta-follow@DISK; do
    systemctl start "$it" 2>/dev/null
    is "$it" ConditionResult no || fails "$it begins though mta.failed is there"
  done
  is_begun DISK 1 || fails "DISK was begun again"
  systemctl start mta-watch@DISK 2>/dev/null && fails "mta-watch@DISK is well"
  journal_has mta-watch@DISK "mta.failed is there" || fails "mta-watch@DISK says nothing of mta.failed"
  # SILVER's calls stop too
  instead_calls SILVER "exit 4"
  systemctl start mta-call@SILVER 2>/dev/null
  [ -e /var/lib/mta/SILVER/mta.failed ] || fails "a call that ends with status 4 leaves no mta.failed"
  systemctl start mta-call@SILVER 2>/dev/null
  is mta-call@SILVER ConditionResult no || fails "SILVER calls though mta.failed is there"
  rm /var/lib/mta/DISK/mta.failed
  rm /etc/systemd/system/mta@DISK.service.d/instead.conf
  systemctl daemon-reload
  systemctl start mta@DISK
  until_so 20 test -s /var/lib/mta/DISK/mta.stations || fails "DISK does not serve once mta.failed is removed"
  systemctl stop mta@DISK
}
instead_calls() {
  mkdir -p "/etc/systemd/system/mta-call@$1.service.d"
  printf '[Service]\nExecStart=\nExecStart=/bin/sh -c "%s"\n' "$2" \
    >"/etc/systemd/system/mta-call@$1.service.d/instead.conf"
  systemctl daemon-reload
}

# once a day it is begun anew, which is no failure
daily() {
  is mta@GOLD RuntimeMaxUSec 1d || fails "GOLD may run for $(shows mta@GOLD RuntimeMaxUSec)"
  agent DAILY "$top/contrib/sample/GOLD/mta.tables" "STATIONS=in:10007"
  mkdir -p /etc/systemd/system/mta@DAILY.service.d
  printf '[Service]\nRuntimeMaxSec=3\n' >/etc/systemd/system/mta@DAILY.service.d/short.conf
  systemctl daemon-reload
  systemctl start mta@DAILY
  until_so 30 sh -c '[ "$(systemctl show -P NRestarts mta@DAILY)" -ge 1 ]' || fails "DAILY is not begun anew"
  systemctl is-failed mta@DAILY >/dev/null && fails "DAILY has failed"
  systemctl stop mta@DAILY
  systemctl is-active mta-failed@mta@DAILY.service.service >/dev/null && fails "a day's end is told as a failure"
  [ ! -e /var/lib/mta/DAILY/mta.failed ] || fails "a day's end leaves mta.failed"
}

# where one of two stations has ended the watching unit says so, and the agent is begun anew
half() {
  local first
  agent HALF "$top/contrib/sample/GOLD/mta.tables" "STATIONS=in:10008 in:10009"
  mkdir -p /etc/systemd/system/mta@HALF.service.d
  printf '[Service]\nExecStart=\nExecStart=/usr/local/bin/mta serve 1 $STATIONS\n' \
    >/etc/systemd/system/mta@HALF.service.d/few.conf
  systemctl daemon-reload
  systemctl start mta@HALF
  first=$(shows mta@HALF MainPID)
  until_so 20 bash -c 'printf "\xff\xff\xff\xff" >/dev/tcp/127.0.0.1/10008' || fails "HALF does not listen"
  until_so 20 grep -q "process $first ended served" /var/lib/mta/HALF/mta.stations ||
    fails "no station of HALF has ended: $(cat /var/lib/mta/HALF/mta.stations)"
  is mta@HALF MainPID "$first" || fails "HALF has ended with one station"
  systemctl start mta-watch@HALF 2>/dev/null && fails "mta-watch@HALF is well"
  journal_has mta-watch@HALF "station 1 in 10008 has ended" || fails "mta-watch@HALF says nothing"
  until_so 20 sh -c "systemctl is-active mta@HALF && [ \"\$(systemctl show -P MainPID mta@HALF)\" != $first ]" ||
    fails "HALF is not begun anew"
  journal_has mta-again@HALF "has had all its sessions" || fails "nothing says that HALF is begun anew"
  until_so 20 systemctl start mta-watch@HALF || fails "mta-watch@HALF: $(journalctl -u mta-watch@HALF -o cat)"
  systemctl stop mta@HALF
}

# a stop is no failure
stopped() {
  systemctl stop mta@GOLD
  is mta@GOLD ActiveState inactive || fails "GOLD is $(shows mta@GOLD ActiveState) after a stop"
  is mta@GOLD Result success || fails "the stop of GOLD: $(shows mta@GOLD Result)"
  systemctl is-failed mta-failed@mta@GOLD.service.service >/dev/null && fails "GOLD failed"
  return 0
}

"$1"
