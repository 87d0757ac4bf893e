#!/usr/bin/env bash
# Runs a command of the program on each document of a folder, side by side: the text of NAME.toml goes to NAME.out,
# and FOLDER/statuses gets a line `STATUS NAME` for each, in order of names. Then the count of each status is printed.
# LOGINS are those of GNU parallel's --sshlogin, as `:` for this machine, or `:,user@other` for it and another; each
# has this repository and FOLDER at the same places, as by a shared file system, and its own built program.
# usage: scripts/many.sh FOLDER [COMMAND [LOGINS [PROGRAM]]]    (default: replay, :, ./nysiad; needs GNU parallel)
set -euo pipefail
top=$(cd "$(dirname "$0")/.." && pwd)
folder=$(realpath "$1")
command=${2:-replay}
logins=${3:-:}
program=$(realpath "${4:-$top/nysiad}")
export program command
run() {
  status=0
  "$program" "$command" <"$1" >"${1%.toml}.out" 2>/dev/null || status=$?
  echo "$status $(basename "$1" .toml)"
}
export -f run
find "$folder" -name '*.toml' -print0 | SHELL=$(command -v bash) parallel -0 --will-cite --sshlogin "$logins" --env run --env program --env command run {} |
  sort -k2 >"$folder/statuses"
cut -d' ' -f1 "$folder/statuses" | sort -n | uniq -c
