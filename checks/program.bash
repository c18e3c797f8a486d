# Sourced by the checks that run programs of the repository.

# `tools TOOL..` ends the check, with a word and status 0, where a tool is missing.
tools() {
  local tool
  for tool in "$@"; do
    command -v "$tool" >/dev/null || { echo "skipped: $tool is not on the PATH"; exit 0; }
  done
}

# `folder` sets `made` to a folder that goes when the check ends.
folder() {
  made=$(mktemp -d) || exit 2
  trap 'rm -rf "$made"' EXIT
}

# whether the program $1 is absent or a source is newer
is_old() {
  [ ! -x "$1" ] || [ -n "$(find crates -path '*/out' -prune -o -name '*.rt' -newer "$1" -print -quit)" ]
}

# `built NAME` leaves the program of a crate at crates/NAME/out/NAME: the one that the gate left there, or a new one
# where a source is newer. Some of them want words and end with another status without, so the status says nothing.
built() {
  local program=crates/$1/out/$1 log
  if is_old "$program"; then
    rm -f "$program"
    log=$(mktemp)
    (cd "crates/$1" && rt run </dev/null) >"$log" 2>&1 || true
    [ -x "$program" ] || { cat "$log"; rm -f "$log"; exit 1; }
    rm -f "$log"
  fi
}

# `found NAME` sets `found` to the path of a program: the proved one that the gate left; where that is absent or old,
# the unproved one of ./demo, which is built in a minute or two. It says which. A script that takes times sets
# `timed=yes` and has the proved one, built if need be.
found() {
  found=$PWD/crates/$1/out/$1
  if [ "${timed:-no}" = no ] && is_old "$found"; then
    found=$PWD/out/unproved/$1
    if is_old "$found"; then python3 checks/unproved.py "$found" "$1" || exit 1; fi
    echo "by the unproved program, $found"
  else
    built "$1"
    [ "${timed:-no}" = yes ] || echo "by the proved program, $found"
  fi
}

# `program TOOL..` is what most checks begin with: tools, a folder, and `mta`, the program's path as `found` has it.
program() {
  tools rt "$@"
  folder
  found mta
  mta=$found
}
