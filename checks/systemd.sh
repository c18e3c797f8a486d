#!/usr/bin/env bash
# The units of contrib/systemd under a systemd that runs: it is the first process of namespaces of its own, over a layer
# above the host's files that goes with it, with the units and nothing else of the host. The block of docs/MANUAL.md,
# "Under systemd", is run there as it stands. Only root can make such namespaces. Run it at the top of the repository.
set -u
cd "$(dirname "$0")/.." || exit 2
[ "$(id -u)" -eq 0 ] || { echo "skipped: only root can run a systemd of its own"; exit 0; }
[ -x /lib/systemd/systemd ] || { echo "skipped: there is no systemd"; exit 0; }
. checks/program.bash
program unshare ip systemctl systemd-sysusers systemd-tmpfiles systemd-analyze journalctl runuser
export mta made top=$PWD
# a control group below ours in each hierarchy that systemd looks at
groups=()
for place in /sys/fs/cgroup /sys/fs/cgroup/systemd /sys/fs/cgroup/unified; do
  [ -e "$place/cgroup.procs" ] && mkdir "$place/mta-check-$$" 2>/dev/null && groups+=("$place/mta-check-$$")
done
bash -c 'for it in "$@"; do echo $$ >"$it/cgroup.procs" || exit 1; done
  exec timeout -s KILL 300 unshare --cgroup --mount --pid --fork --uts --ipc --net --kill-child \
    bash checks/systemd.bash boot' boot "${groups[@]}" >"$made/boot" 2>&1
sleep 0.2
for it in "${groups[@]}"; do find "$it" -depth -type d -exec rmdir {} + 2>/dev/null; done
if [ ! -e "$made/said" ]; then
  echo "skipped: systemd does not run in namespaces here: $(tail -n 1 "$made/boot")"
  exit 0
fi
cat "$made/said"
grep -qx "the units do what they have to" "$made/said"
