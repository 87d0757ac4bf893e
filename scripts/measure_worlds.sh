#!/usr/bin/env bash
# Measures `replay`: four inputs and 30 exchanges over a ring of 4, 8, 16 and 32 hosts that flood, with planned
# guards. For each: how many packets were sent and how many were taken, the time and memory of a run, and what
# that is for each taking and each packet. Beside it stands how long a plain program takes for the tags alone:
# one for each packet, made once and verified once, by the library that python3 has. It does nothing else of
# a replay, so it is a floor and no rival.
#
# No command prints how many packets there are, but a delivery of one that wasn't sent is refused with their
# number. An exchange gives all that were sent before it, since nobody lies here; so the takings are the sum
# of these numbers, of which each is asked by a shorter document.
#
# Then two documents at the limits: a host whose log fills, and a liar that fills the pool.
#
# Again: scripts/measure_worlds.sh, on a machine that does nothing else. Needs GNU time and python3.
set -euo pipefail
cd "$(dirname "$0")/.."
program=${1:-crates/nysiad/out/nysiad}
[ $# -gt 0 ] || ./nysiad bare </dev/null >/dev/null || true
exchanges=30
runs=10
folder=$(mktemp -d)
trap 'rm -rf "$folder"' EXIT

# what a document of a ring of hosts begins with, up to its schedule
head_of() { # HOSTS
  awk -v hosts="$1" 'BEGIN {
    print "hosts = " hosts
    printf "links = ["
    for (h = 0; h < hosts; h++) printf "[%d, %d], ", h, (h + 1) % hosts
    print "]"
    print "protocol = \"flood\""
    printf "master = \""
    for (d = 0; d < 64; d++) printf "0"
    print "\""
    print "epoch = [{ t = 1, credit = 8 }]"
  }'
}

# a ring of hosts, of which four take an input, then so many exchanges and a last line
document() { # HOSTS EXCHANGES LAST
  head_of "$1"
  awk -v hosts="$1" -v exchanges="$2" -v last="$3" 'BEGIN {
    print "schedule = \047\047\047"
    for (i = 0; i < 4; i++) print "input " i * hosts / 4 " " i + 1
    for (e = 0; e < exchanges; e++) print "exchange"
    print last
    print "\047\047\047"
  }'
}

# how many packets were sent after so many exchanges
packets_after() { # HOSTS EXCHANGES
  { document "$1" "$2" "deliver 4294967295" | "$program" replay || true; } | sed -n 's/^no packet: .* of //p'
}

# how many seconds the tags of so many packets take
tags_alone() { # PACKETS
  python3 - "$1" <<'PYTHON'
import hmac, sys, time
master, statement = bytes(32), bytes(16)
def tag(maker, receiver):
    pair = bytes([min(maker, receiver), max(maker, receiver)])
    key = hmac.digest(master, b"nysiad-pair" + pair, "sha256")
    return hmac.digest(key, bytes([maker, receiver]) + statement, "sha256")
start = time.perf_counter()
for k in range(int(sys.argv[1])):
    maker, receiver = k % 4, (k + 1) % 4
    made = tag(maker, receiver)
    assert hmac.compare_digest(made, tag(maker, receiver))
print(f"{time.perf_counter() - start:.3f}")
PYTHON
}

# how many kilobytes a run takes at most
kilobytes() { # DOCUMENT
  { /usr/bin/time -f '%M' "$program" replay <"$1" >/dev/null; } 2>&1 | tail -n 1
}

printf '%5s %7s %7s %5s %8s %9s %6s %9s %10s\n' hosts packets takings steps 'run s' us/taking MB kB/packet 'tags alone'
for hosts in 4 8 16 32; do
  takings=0
  for ((e = 0; e < exchanges; e++)); do
    takings=$((takings + $(packets_after "$hosts" "$e")))
  done
  packets=$(packets_after "$hosts" "$exchanges")
  document "$hosts" "$exchanges" "" >"$folder/whole.toml"
  document "$hosts" 0 "" >"$folder/begun.toml"
  steps=$("$program" replay <"$folder/whole.toml" | awk '/^hosts$/ { steps = NR - 2 } END { print steps }')
  start=$EPOCHREALTIME
  for ((r = 0; r < runs; r++)); do "$program" replay <"$folder/whole.toml" >/dev/null; done
  end=$EPOCHREALTIME
  awk -v hosts="$hosts" -v packets="$packets" -v takings="$takings" -v steps="$steps" -v runs="$runs" \
    -v start="$start" -v end="$end" -v most="$(kilobytes "$folder/whole.toml")" \
    -v before="$(kilobytes "$folder/begun.toml")" -v tags="$(tags_alone "$packets")" 'BEGIN {
    seconds = (end - start) / runs
    printf "%5d %7d %7d %5d %8.3f %9.2f %6.1f %9.2f %8.3f s\n", hosts, packets, takings, steps, seconds,
      1000000 * seconds / takings, most / 1024, (most - before) / packets, tags
  }'
done

# runs the program and prints seconds and megabytes
measure() { # NAME DOCUMENT
  local line
  line=$({ /usr/bin/time -f '%e %M' "$program" replay <"$2" >/dev/null; } 2>&1 | tail -n 1)
  printf '%-46s %6.2f s %6d MB\n' "$1" "${line% *}" "$((${line#* } / 1024))"
}

{ head_of 4; echo "schedule = '''"; awk 'BEGIN { for (i = 0; i < 1024; i++) print "input 0 " i + 1 "\nflush\nflush\nflush\nflush" }'; echo "'''"; } >"$folder/log.toml"
measure "1,024 inputs of one host, agreed on by four" "$folder/log.toml"
{ head_of 4; echo "liars = [0]"; echo "schedule = '''"; awk 'BEGIN { for (i = 0; i < 66666; i++) print "say 0 1,2,3 offer 0 0 0 in 5" }'; echo "'''"; } >"$folder/pool.toml"
measure "199,998 packets of a liar" "$folder/pool.toml"
