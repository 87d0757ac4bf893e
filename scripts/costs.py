#!/usr/bin/env python3
"""Tells what the gate costs: processor seconds of each crate's own proof, tests and must-fail edits.

scripts/costs.py                 runs `rt ci --anew`, which proves and tries all from nothing, and prints a table
scripts/costs.py -- COMMAND ..   the same of another command, as `rt ci`
scripts/costs.py --functions CRATE ..   proves these crates again (all, where none is named), over the libraries that the
                                 gate left, and prints their 40 dearest functions

The prover's processes are looked at twice a second, so each may lack its last half second. A crate with two edits
or more is proved once more for them: that is counted with its edits. Functions are timed one after another, from
the end of the proof before to their own, so the first of a crate has the reading of its libraries in it.
"""

import collections
import importlib
import os
import re
import subprocess
import sys
import time

TICKS = os.sysconf("SC_CLK_TCK")
EVERY = 0.5
MOST = 40
KINDS = ("proof", "tests", "edits")


def words_of(process):
    """The words of a process, and its folder; None where it is gone or is no run of the prover."""
    try:
        with open(f"/proc/{process}/cmdline", encoding="utf-8", errors="replace") as text:
            words = text.read().split("\0")
        if os.path.basename(words[0]) != "rattle" or "--crate-name" not in words:
            return None
        return words, os.readlink(f"/proc/{process}/cwd")
    except OSError:
        return None


def seconds_of(process):
    """When a process began, and its processor seconds so far; None where it is gone."""
    try:
        with open(f"/proc/{process}/stat", encoding="utf-8") as text:
            fields = text.read().rsplit(")", 1)[1].split()
    except (OSError, IndexError):
        return None
    return int(fields[19]), (int(fields[11]) + int(fields[12])) / TICKS


def kind_of(words, folder):
    """What a run of the prover is for: edits are tried on copies of a crate."""
    if "/rt-edit-" in folder:
        return "edits"
    return "tests" if "--test" in words else "proof"


def look(seen):
    """Notes what each run of the prover has used by now."""
    for process in filter(str.isdigit, os.listdir("/proc")):
        used = seconds_of(process)
        if used is None:
            continue
        found = seen.get((process, used[0]))
        if found is None:
            told = words_of(process)
            if told is None:
                continue
            words, folder = told
            found = [words[words.index("--crate-name") + 1], kind_of(words, folder), 0]
            seen[process, used[0]] = found
        found[2] = used[1]


def run_gate(command):
    """Runs the gate, and gives the seconds by crate and kind, how long it took, and its status."""
    seen, began = {}, time.time()
    gate = subprocess.Popen(command)
    while gate.poll() is None:
        look(seen)
        time.sleep(EVERY)
    used = collections.defaultdict(lambda: dict.fromkeys(KINDS, 0))
    for crate, kind, seconds in seen.values():
        used[crate][kind] += seconds
    return used, time.time() - began, gate.returncode


def print_costs(used, took):
    print(f"\nThe gate took {took / 60:.0f} minutes by the clock.\n")
    print("| crate | proof | tests | edits | all |\n|---|---|---|---|---|")
    sums = {kind: sum(costs[kind] for costs in used.values()) for kind in KINDS}
    rows = sorted(used.items(), key=lambda row: -sum(row[1].values()))
    for crate, costs in [*rows, ("all", sums)]:
        cells = [f"{costs[kind]:.0f}" for kind in KINDS]
        print(f"| {crate} | {' | '.join(cells)} | {sum(costs.values()):.0f} |")
    print(f"\nIn all {sum(sums.values()) / 60:.0f} processor minutes.")


def kit():
    """The kit's own module, which knows with what words a crate is checked."""
    sys.path.insert(0, os.path.dirname(subprocess.check_output(["rt", "doc"], text=True)) + "/bin")
    return importlib.import_module("rtlib")


def time_functions(crate, rattle):
    """Proves a crate from nothing, over the libraries that the gate left, and gives the seconds of each of its functions."""
    words = [rattle, "check", *crate.words(["--jobs", "1"], keeps=False), "--progress"]
    times, last = [], time.time()
    run = subprocess.Popen(words, cwd=crate.folder, stdout=subprocess.PIPE, stderr=subprocess.STDOUT, text=True)
    for line in run.stdout:
        told = re.match(r"checked (\S+), \d+ of \d+", line)
        if told:
            times.append((time.time() - last, told[1]))
        last = time.time()
    if run.wait():
        sys.exit(f"{crate.name} was not proved")
    return times


def dearest_functions(names):
    """The dearest functions of these crates, or of all where none is named."""
    rtlib = kit()
    crates = [it for it in rtlib.crates_below(os.getcwd()) if not names or it.name in names]
    return sorted((it for crate in crates for it in time_functions(crate, rtlib.RATTLE)), reverse=True)[:MOST]


def main(words):
    os.chdir(os.path.dirname(os.path.dirname(os.path.abspath(__file__))))
    if words[:1] == ["--functions"]:
        print("| function | seconds |\n|---|---|")
        for seconds, function in dearest_functions(words[1:]):
            print(f"| `{function}` | {seconds:.0f} |")
        return 0
    used, took, status = run_gate(words[1:] if words[:1] == ["--"] else ["rt", "ci", "--anew"])
    print_costs(used, took)
    return status


if __name__ == "__main__":
    sys.exit(main(sys.argv[1:]))
