#!/usr/bin/env bash
# Tests scripts/many.sh: what it gathers of a folder is what each document's own run prints and ends with.
# Where there is no GNU parallel and none can be installed, it says so and passes.
# usage: scripts/many_test.sh [PROGRAM]    (default: ./nysiad)
set -euo pipefail
cd "$(dirname "$0")/.."
program=${1:-./nysiad}
if ! command -v parallel >/dev/null; then
  (apt-get update && apt-get install -y --no-install-recommends parallel) >/dev/null 2>&1 ||
    { echo "many: not tested, since there is no GNU parallel and none can be installed"; exit 0; }
fi
room=$(mktemp -d)
trap 'rm -rf "$room"' EXIT
scripts/vary.py examples/two_offers_of_a_liar.toml 1 20 "$room" "$program"
# One that is refused, and one whose name has a space.
echo 'hosts = 0' >"$room/refused.toml"
cp examples/an_input_among_four_guards.toml "$room/four guards.toml"
scripts/many.sh "$room" replay : "$program" >"$room/counts"
for document in "$room"/*.toml; do
  status=0
  "$program" replay <"$document" >"$room/alone" 2>/dev/null || status=$?
  cmp "$room/alone" "${document%.toml}.out"
  grep -Fqx "$status $(basename "$document" .toml)" "$room/statuses"
done
[ "$(wc -l <"$room/statuses")" = 22 ]
grep -q ' 1 3$' "$room/counts"
echo "many: $(wc -l <"$room/statuses") documents, each as it runs alone"
