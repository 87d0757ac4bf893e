#!/usr/bin/env bash
# Tests ./nysiad with a stand-in for `rt`: a program is run only where the build of its very sources passed.
set -euo pipefail
top=$(cd "$(dirname "${BASH_SOURCE[0]}")/.." && pwd)
room=$(mktemp -d)
trap 'rm -rf "$room"' EXIT
mkdir -p "$room"/bin "$room"/repo/{scripts,crates/nysiad/{src,out}}
cp "$top/nysiad" "$room/repo/"
cp "$top/scripts/build.py" "$room/repo/scripts/"
cd "$room/repo"
echo "nysiad:" >crates.txt
echo "Handles allowed: none." >HANDLES
echo "fn main() {}" >crates/nysiad/src/main.rt
touch -d '1 hour ago' crates.txt HANDLES crates/nysiad/src/main.rt crates/nysiad/src

# The stand-in: `leaves` says whether it makes a program that prints NEW, `status` how it ends.
cat >"$room/bin/rt" <<'RT'
#!/usr/bin/env bash
echo called >>"$ROOM/calls"
if [ "$LEAVES" = new ]; then
  mkdir -p crates/nysiad/out
  printf '#!/bin/sh\necho NEW\n' >crates/nysiad/out/nysiad
  chmod +x crates/nysiad/out/nysiad
fi
exit "$STATUS"
RT
chmod +x "$room/bin/rt"

passed=0
failed=0
# expect NAME LEAVES STATUS_OF_RT CALLS STATUS_WANTED TEXT_WANTED
expect() {
  : >"$room/calls"
  status=0
  text=$(ROOM=$room LEAVES=$2 STATUS=$3 PATH=$room/bin:$PATH ./nysiad bare 2>"$room/said") || status=$?
  calls=$(wc -l <"$room/calls")
  if [ "$calls $status $text" = "$4 $5 $6" ]; then
    passed=$((passed + 1))
  else
    echo "wrapper: $1: calls, status and text are '$calls $status $text' and not '$4 $5 $6'"
    sed 's/^/  /' "$room/said"
    failed=$((failed + 1))
  fi
}
old_program() {
  printf '#!/bin/sh\necho OLD\n' >crates/nysiad/out/nysiad
  chmod +x crates/nysiad/out/nysiad
}

old_program
expect "a build that fails runs nothing, though an old program is there" none 1 1 70 ""
expect "and is tried again at the next call" none 1 1 70 ""
expect "a build that fails late runs neither the new program nor the old" new 1 1 70 ""
expect "a build that passes and leaves no program runs nothing" none 0 1 70 ""
expect "a build that passes is run" new 0 1 0 NEW
expect "and is run again with no build" none 1 0 0 NEW
mkdir "$room/elsewhere"
ln -s "$room/repo/nysiad" "$room/elsewhere/nysiad"
cd "$room/elsewhere"
expect "and so it is by a link from another folder" none 1 0 0 NEW
cd "$room/repo"
printf '#!/bin/sh\necho words: 0\nexit 2\n' >crates/nysiad/out/nysiad
expect "refused words end with 2, and their line alone is printed" none 1 0 2 "words: 0"
if grep -q '^usage: ./nysiad COMMAND' "$room/said"; then
  passed=$((passed + 1))
else
  echo "wrapper: refused words show no usage on standard error"
  failed=$((failed + 1))
fi
touch -d '1 minute' crates/nysiad/src/main.rt
expect "a newer source is built, and where that fails nothing is run" none 1 1 70 ""
expect "a newer source is built and run" new 0 1 0 NEW
rm crates/nysiad/out/nysiad
expect "a program that is gone is built again" new 0 1 0 NEW
echo "wrapper: $passed passed, $failed failed"
[ "$failed" -eq 0 ]
