#!/usr/bin/env bash
# Runs the program on each example, and compares what it prints and its status with what is wanted.
# The first line of an example gives the words; the second one, `# status N`, a status other than 0.
set -euo pipefail
cd "$(dirname "$0")/.."
program=${1:-./nysiad}
printed=$(mktemp)
trap 'rm -f "$printed"' EXIT
passed=0
failed=0
for document in examples/*.toml; do
  words=$(sed -n '1s/^# nysiad //p' "$document")
  wanted=$(sed -n '2s/^# status //p' "$document")
  wanted=${wanted:-0}
  text=${document%.toml}.out
  status=0
  "$program" $words <"$document" >"$printed" || status=$?
  same=yes
  if [ "$status" != "$wanted" ]; then
    same=no
    echo "$document: status $status, and $wanted is wanted"
  fi
  diff -u --label "$text" --label "printed" "$text" "$printed" || same=no
  if [ "$same" = yes ]; then
    passed=$((passed + 1))
  else
    failed=$((failed + 1))
  fi
done
echo "examples: $passed passed, $failed failed"
[ "$failed" -eq 0 ]
