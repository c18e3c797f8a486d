# Sourced by install.sh and by packaging/build.sh, with the top of the repository in `top` and the program mta, or
# nothing, in `program`: sets `program`, `rehearse`, `audit`, `follow` and `store` to the programs that are put in
# place.

# prints the path of the program $1
found() {
  local file
  for file in ${program:+"$(dirname "$program")/$1"} "$top/crates/$1/out/$1" "$top/out/unproved/$1"; do
    [ -x "$file" ] && [ ! -d "$file" ] && { echo "$file"; return; }
  done
  echo "$(basename "$0"): no program $1; ./demo builds one without proofs, rt ci a proved one" >&2
  exit 1
}
rehearse=$(found mta_rehearse)
audit=$(found mta_audit)
follow=$(found mta_follow)
store=$(found mta_store)
[ -n "$program" ] || program=$(found mta)
[ -x "$program" ] || { echo "$(basename "$0"): $program is no program" >&2; exit 1; }

# prints what the programs are: version, commit, kit, and whether each was proved. A package's source has it beside them
built() {
  local name file proved=proved commit kit
  if [ -e "$(dirname "$program")/BUILT" ]; then cat "$(dirname "$program")/BUILT"; return; fi
  for file in "$program" "$rehearse" "$audit" "$follow" "$store"; do
    name=$(basename "$file")
    cmp -s "$file" "$top/crates/$name/out/$name" || proved=UNPROVED
  done
  commit=$(git -C "$top" rev-parse HEAD 2>/dev/null) || commit=unknown
  [ -z "$(git -C "$top" status --porcelain 2>/dev/null)" ] || commit="$commit, with changes"
  kit=$(rt version 2>/dev/null | head -n 1)
  echo "version $(sed -n '1s/.*(\(.*\)).*/\1/p' "$top/packaging/debian/changelog" 2>/dev/null)"
  echo "commit $commit"
  echo "kit ${kit:-unknown}"
  echo "programs $proved"
}
