#!/usr/bin/env bash
# Refuses the allocations of calls of the program, each in turn, and tests that the call then ends with status 14 and has
# written `no memory` or a front of its text; or that it does without that memory: it ends and writes as it would have.
# Needs a C compiler.
# usage: scripts/refuse_allocations.sh [--program PROGRAM] [ROW[:EVERY] | EXAMPLE.toml[:EVERY]]..
#   EVERY     how many allocations come to one that is refused (default 1: each is)
#   --all     the long rows in place of the gate's, each allocation of them
# With no row: the rows of the gate.
set -euo pipefail
cd "$(dirname "$0")/.."
program=crates/nysiad/out/nysiad
# a machine, a run text and the ends of epochs: each allocation; longer ones: each 200th
calls=(
  a_handler_that_divides_by_zero_sends_nothing examples/a_run_of_two_steps.toml an_undecided_host
  examples/flood_on_a_ring.toml examples/replicated_counter.toml an_unknown_word_is_no_command
  workload_of_no_events
  a_message_is_agreed_on_in_nine_exchanges:200 a_trace_over_two_epochs:200 examples/flood_among_guards.toml:200
)
long=(
  a_message_is_agreed_on_in_nine_exchanges a_trace_over_two_epochs examples/flood_among_guards.toml
  examples/a_machine_among_guards.toml examples/handed_over_to_other_guards.toml examples/noise_is_dropped.toml
  examples/a_liar_in_a_multicast_tree.toml a_workload_of_200_events
)
while [ $# -gt 0 ]; do
  case $1 in
    --program) program=$2; shift 2 ;;
    --all) calls=("${long[@]}"); shift ;;
    *) calls=("$@"); break ;;
  esac
done
folder=$(mktemp -d)
trap 'rm -rf "$folder"' EXIT
cc -O1 -shared -fPIC -o "$folder/refuse.so" scripts/refuse_allocations.c -ldl

# writes the words and the document of a row or an example
write_call() { # NAME FILE
  python3 - "$@" <<'PYTHON'
import pathlib, sys
sys.path.insert(0, "scripts")
import rows
name, file = sys.argv[1:]
if name.endswith(".toml"):
    document = pathlib.Path(name).read_bytes()
    words = document.split(b"\n")[0].decode().removeprefix("# nysiad ").split(" ")
else:
    [row] = [row for row in rows.all_rows() if row.name == name]
    words, document = row.words, row.document
pathlib.Path(file + ".toml").write_bytes(document)
pathlib.Path(file + ".words").write_text("".join(word + "\n" for word in words))
PYTHON
}

# refuses allocations of a call, and tells how many and what was wrong
refuse() { # NAME[:EVERY]
  local name=${1%:*} every=1 file words=()
  [ "$name" = "$1" ] || every=${1##*:}
  file=$folder/$(basename "$name" .toml)
  write_call "$name" "$file"
  mapfile -t words <"$file.words"
  local status=0
  "$program" "${words[@]}" <"$file.toml" >"$file.wanted" || status=$?
  STATUS=$status EVERY=$every WANTED=$file.wanted REPORT=$file.report LD_PRELOAD=$folder/refuse.so \
    "$program" "${words[@]}" <"$file.toml" >"$file.text" || true
  touch "$file.report"
  cmp -s "$file.wanted" "$file.text" || echo "0: the call itself prints another text" >>"$file.report"
  sed -n "s|^\([0-9]*: .*\)|refuse_allocations: $name: allocation \1|p" "$file.report"
  echo "refuse_allocations: $name: $(grep -c '^[0-9]*$' "$file.report") ended with 14, $(grep -c without "$file.report") did without"
  ! grep -q ':' "$file.report" && [ -s "$file.report" ]
}
export -f write_call refuse
export folder program
printf '%s\n' "${calls[@]}" | SHELL=$(command -v bash) xargs -P "$(nproc)" -I{} bash -c 'refuse "$1"' _ {}
