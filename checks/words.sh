#!/usr/bin/env bash
# Words outside the grammar, among them one that is not UTF-8: the usage line, status 1, and no file is made. A drill:
# its lines, status 0, and no file. Stations without tables, and one that calls a peer whom the tables do not name:
# status 8, status 10, and no file. Words of `mta_audit` that are not two files, words that are none of `mta_follow`,
# and words of `mta_store` that ask nothing of a mailbox: their usage lines. Run it at the top of the repository.
set -u
cd "$(dirname "$0")/.." || exit 2
. checks/program.bash
program
found mta_store
store=$found
found mta_follow
follow=$found
found mta_audit
cd "$made" || exit 2
usage="usage: mta submit or serve SESSIONS STATION... or spool or read MAILBOX or decode or drill N"
for words in "" "serve" "serve 1 in:0" "drill 0" "--help" "read -x" "submit twice" $'\xff' $'read \xff'; do
  # shellcheck disable=SC2086
  got=$("$mta" $words </dev/null)
  status=$?
  [ "$status" -eq 1 ] && [ "$got" = "$usage" ] || { echo "status $status: $got"; exit 1; }
  [ ! -e mta.spool ] || { echo "a file was made"; exit 1; }
done
# asks WORDS STATUS LINE: the words end with the status and the line, and no spool is made
asks() {
  local got status
  # shellcheck disable=SC2086
  got=$("$mta" $1 </dev/null)
  status=$?
  [ "$status" -eq "$2" ] && [ "$got" = "$3" ] || { echo "$1: status $status: $got"; exit 1; }
  [ ! -e mta.spool ] || { echo "$1: a file was made"; exit 1; }
}
asks "drill 3" 0 $'drill 3\naccepted 3\ntransferred 3\ndelivered 3\nbroken 2\noctets 9951'
asks "serve 1 out:EAST:localhost:1002" 8 "source fault"
printf 'domain C=GB;A=GOLD\nname GOLD-1\npeer WEST a b twa 4 3\n' >mta.tables
asks "serve 1 out:WEST:localhost:1002 out:EAST:localhost:1002" 10 "no such peer EAST"
for words in "" "list" "list -x" "list watt 1" "fetch watt" "fetch watt 01" "delete watt 0" "--help" $'list \xff'; do
  # shellcheck disable=SC2086
  got=$("$store" $words)
  status=$?
  [ "$status" -eq 1 ] && [ "$got" = "usage: mta_store list or fetch or delete" ] ||
    { echo "mta_store $words: status $status: $got"; exit 1; }
  [ ! -e mta.spool ] && [ ! -e mta.marks ] || { echo "mta_store $words: a file was made"; exit 1; }
done
# mta_audit says of these words that they are none of its
are_refused() {
  local got status
  got=$(timeout 20 "$found" "$@")
  status=$?
  [ "$status" -eq 1 ] && [ "$got" = "usage: mta_audit FIRST SECOND" ] && return
  echo "$*: status $status: $got"
  exit 1
}

for words in "" "a" "a b c" "a a" "a ./a" "$made/a ../${made##*/}/a" $'\xff a'; do
  # shellcheck disable=SC2086
  are_refused $words
  [ ! -e a ] || { echo "$words: a file was made"; exit 1; }
done
printf 'MTASPL01\0' >a
ln a b
ln -s a c
for words in "a a" "a ./a" "a b" "c b"; do
  # shellcheck disable=SC2086
  are_refused $words
done
usage="usage: mta_follow push HOST PORT or pull PORT"
for words in "" "push a" "push a:b 1" "push -a 1" "pull" "pull 0" "pull 65536" "--help" $'pull \xff'; do
  # shellcheck disable=SC2086
  got=$(timeout 20 "$follow" $words)
  status=$?
  [ "$status" -eq 1 ] && [ "$got" = "$usage" ] || { echo "mta_follow $words: status $status: $got"; exit 1; }
  [ ! -e mta.spool ] || { echo "mta_follow $words: a file was made"; exit 1; }
done
echo "words outside the grammar are told the usage line; a drill makes no file; stations that the tables do not allow"
echo "are told so; two words that name one file are no words of mta_audit; mta_follow and mta_store have usage lines"
