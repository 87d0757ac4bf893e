#!/usr/bin/env bash
# Runs the program where its input is closed, and where its output is closed, full or a pipe that ends: each call ends by
# itself, with the status of the table, and no signal.
# usage: scripts/outside.sh [PROGRAM]    (default: crates/nysiad/out/nysiad)
set -uo pipefail
cd "$(dirname "$0")/.."
program=${1:-crates/nysiad/out/nysiad}
document=examples/flood_on_a_ring.toml
passed=0
failed=0
# expect NAME STATUS_WANTED STATUS
expect() {
  if [ "$2" = "$3" ]; then
    passed=$((passed + 1))
  else
    echo "outside: $1: status $3, and $2 is wanted"
    failed=$((failed + 1))
  fi
}

"$program" bare <&- >/dev/null
expect "an input that is closed can't be read" 11 $?
"$program" bare </ >/dev/null
expect "an input that is a folder can't be read" 11 $?
"$program" bare <"$document" >&-
expect "an output that is closed can't be written" 12 $?
"$program" bare <"$document" >/dev/full
expect "an output that is full can't be written" 12 $?
"$program" bare --none <"$document" >/dev/full
expect "nor can the line of a refusal" 12 $?
# the reader is gone before the program writes
{ sleep 0.2; "$program" bare <"$document"; echo $? >"${TMPDIR:-/tmp}/outside.$$"; } | true
sleep 0.5
expect "a pipe that ended can't be written" 12 "$(cat "${TMPDIR:-/tmp}/outside.$$")"
rm -f "${TMPDIR:-/tmp}/outside.$$"
"$program" bare </dev/null >/dev/null
expect "an empty input is a document with no key" 3 $?
"$program" $'\xff' <"$document" >/dev/null
expect "a word that is no UTF-8 is no command" 2 $?
echo "outside: $passed passed, $failed failed"
[ "$failed" -eq 0 ]
