#!/usr/bin/env bash
# What checks/peer plays: a plain peer of associations, as docs/PROTOCOL.md has them, which shares no code with the
# program, and relays, kills and floods beside it. Run it at the top of the repository: checks/peer.sh WHAT [WORDS..];
# without WHAT their names are printed.
#
#   pair [--call HOST:PORT | --listen HOST:PORT]
#              the peer against itself over loopback, or against a foreign one in place of one side: transfers with
#              breaks at every unit, kills, and wrong units
#   serve      the peer calls `mta serve` and is called by it, monologue and two-way, with a break at every unit and
#              recovery, and with one wrong unit of each kind
#   stations [SECONDS]
#              sixteen stations of one process under load, with sixteen other agents, and processes that are stopped by
#              SIGKILL and started again, for so long (25): each message ends in exactly one mailbox, once there, and is
#              sent everywhere else; copies of the spool that are made meanwhile open; audits of the spools agree
#   cuts [SECONDS]
#              pairs of agents whose connections are cut at random octets in either direction, and whose processes are
#              stopped by SIGKILL, for so long (30): each message arrives once
#   restarts [N [SEED]]
#              two agents exchange N messages (60) while their processes are restarted and killed, their connections
#              break and their spools are compacted: each message ends in its mailbox once, and what a compacted spool
#              has is bounded
#   floods [--program FILE] [--seconds N] [NAME..]
#              silent, slow, empty and random connections, one that announces much, more of them than files may be
#              opened, a port in use, a limit of open files, a peer that closes at once, and sixteen stations of which
#              fifteen have a hostile peer, against `mta serve`: true peers are served all the same, and nothing is
#              lost. The floods of these names, or all, which takes seven and a half minutes; but `within`, which takes
#              ten more, is run by its name alone. `sixteen` goes on for N seconds (40)
#   disks [N]  `mta submit` and `mta serve` over a file whose calls fail, that is full, read-only or cut, at N places of
#              each fault (12): the status is that of the disk, nothing that was acknowledged is lost, and with a file
#              that is well it goes on
#   dissector [--call HOST:PORT]
#              associations of the peer, or of a foreign responder, as Wireshark shows them with
#              contrib/wireshark/mta.lua: the units, and the messages that were joined from pieces over breaks, are the
#              ones that were put
set -u
cd "$(dirname "$0")/.." || exit 2
. checks/program.bash
export PYTHONDONTWRITEBYTECODE=1
peer=checks/peer
if [ $# -eq 0 ]; then
  printf '%s\n' pair serve stations cuts restarts floods disks dissector
  exit 0
fi
what=$1
shift
case $what in
  pair)
    tools python3
    python3 $peer/selftest.py "$@"
    ;;
  serve)
    program python3
    python3 $peer/real.py "$mta" "$made"
    ;;
  stations)
    program python3 cp
    found mta_audit
    python3 $peer/load.py "$mta" "$found" "$made" "${1:-25}"
    ;;
  cuts)
    program python3
    python3 $peer/cuts.py "$mta" "$made" "${1:-30}"
    ;;
  restarts)
    program python3
    python3 $peer/restarts.py "$mta" "$made" "${1:-60}" ${2:+"$2"}
    ;;
  floods)
    words=()
    if [ "${1:-}" = --program ]; then
      tools python3
      folder
      mta=$(realpath "$2")
      shift 2
    else
      program python3
    fi
    if [ "${1:-}" = --seconds ]; then
      words=(--seconds "$2")
      shift 2
    fi
    python3 $peer/floods.py "${words[@]}" "$mta" "$made" "$@"
    ;;
  disks)
    program python3 cc
    cc -Wall -Wextra -O1 -shared -fPIC -o "$made/disks.so" checks/disks.c -ldl || exit 1
    python3 $peer/disks.py "$mta" "$made/disks.so" "$made" "${1:-12}"
    ;;
  dissector)
    tools tshark python3
    folder
    python3 $peer/capture.py "$made" contrib/wireshark/mta.lua "$@"
    ;;
  *)
    echo "the peer plays no $what; what it plays: $(bash checks/peer.sh | xargs)" >&2
    exit 2
    ;;
esac
