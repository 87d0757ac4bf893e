#!/usr/bin/env bash
# Measures the program on documents at its limits: time and memory of each.
set -euo pipefail
cd "$(dirname "$0")/.."
./nysiad bare </dev/null >/dev/null || true
program=crates/nysiad/out/nysiad
folder=$(mktemp -d)
trap 'rm -rf "$folder"' EXIT

# the head of a document with a ring of 32 hosts
head32() {
  echo 'hosts = 32'
  echo -n 'links = ['
  for h in $(seq 0 31); do echo -n "[$h, $(((h + 1) % 32))], "; done
  echo ']'
  echo 'protocol = "sum"'
}

# the head of a document with one host that runs a machine
machine1() { # VARIABLES AND INPUT HANDLER
  echo 'hosts = 1'
  echo 'links = []'
  echo 'protocol = "machine"'
  echo "machine = '''"
  echo "$1"
  echo 'on receive p a { }'
  echo "'''"
}

# runs the program and prints seconds and megabytes
measure() { # NAME WORDS DOCUMENT
  local line
  line=$({ /usr/bin/time -f '%e %M' "$program" $2 <"$3" >/dev/null; } 2>&1 | tail -n 1)
  printf '%-46s %6.2f s %6d MB\n' "$1" "${line% *}" "$((${line#* } / 1024))"
}

{ printf 'hosts = 3\nlinks = [[0, 1], [1, 2]]\nprotocol = "sum"\nschedule = '"'''"'\n'; awk 'BEGIN { for (i = 0; i < 6540; i++) print "input 1 5" }'; echo "'''"; } >"$folder/small.toml"
measure "a document of 65,536 bytes" bare "$folder/small.toml"
{ head32; echo "schedule = '''"; awk 'BEGIN { for (i = 0; i < 50000; i++) { print "input " i % 32 " " i; print "deliver " i } }'; echo "'''"; } >"$folder/events.toml"
measure "100,000 events over 32 hosts" bare "$folder/events.toml"
{ head32; echo "schedule = '''"; awk 'BEGIN { for (i = 0; i < 25000; i++) { print "input " i % 32 " " i; print "deliver " i } }'; echo "'''"; } >"$folder/half.toml"
measure "50,000 events over 32 hosts" bare "$folder/half.toml"
{ head32; echo "run = '''"; awk 'BEGIN { for (i = 0; i < 100000; i++) print i % 32 " input " i }'; echo "'''"; } >"$folder/run.toml"
measure "a run text of 100,000 steps" verify "$folder/run.toml"
{ head32; echo "schedule = '''"; awk 'BEGIN { for (i = 0; i < 670000; i++) print "# a line that says nothing" }' | cut -c1-24; echo "'''"; } >"$folder/large.toml"
measure "a document of 16 MB" bare "$folder/large.toml"
{ machine1 'var total = 0; var most = 0; on input a { total = total + a[0]; if a[0] > most { most = a[0]; } }'; echo "schedule = '''"; awk 'BEGIN { for (i = 0; i < 100000; i++) print "input 0 " i % 1000 }'; echo "'''"; } >"$folder/handlers.toml"
measure "100,000 handlers of a small machine" bare "$folder/handlers.toml"
{ machine1 'var turns = 0; on input a { for i from 0 to 1997 { turns = i + 1; } }'; echo "schedule = '''"; awk 'BEGIN { for (i = 0; i < 1000; i++) print "input 0 1" }'; echo "'''"; } >"$folder/work.toml"
measure "1,000 handlers of nearly 10,000 units" bare "$folder/work.toml"
