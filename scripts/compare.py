#!/usr/bin/env python3
"""Times two programs for the same words by turns on the same documents, and says how they stand to each other.

Rings of 4, 8, 16 and 32 hosts that flood, with planned guards, four inputs, and 30, 130 and 330 exchanges: with
every exchange more of what is taken is old. For each document: the least processor seconds and the most memory of
each program over some runs, and the ratio of the first's seconds to the second's. Both must print the same bytes.
Needs GNU time.

usage: scripts/compare.py PROGRAM RIVAL [--runs 10] [--hosts 4,8,16,32] [--exchanges 30,130,330]
       scripts/compare.py PROGRAM RIVAL --words 'workload 7 8 10000'      (these words, and no document)
"""

import argparse
import os
import subprocess
import sys
import tempfile

KEY = "0" * 64


def document(hosts, exchanges):
    """A ring of hosts that flood, of which four take an input, then so many exchanges."""
    links = ", ".join(f"[{h}, {(h + 1) % hosts}]" for h in range(hosts))
    inputs = "".join(f"input {i * hosts // 4} {i + 1}\n" for i in range(4))
    return (
        f'hosts = {hosts}\nlinks = [{links}]\nprotocol = "flood"\nmaster = "{KEY}"\n'
        f"epoch = [{{ t = 1, credit = 8 }}]\nschedule = '''\n{inputs}"
        + "exchange\n" * exchanges
        + "'''\n"
    )


class Run:
    """One run of a program: what it printed, how it ended, and its processor seconds."""

    def __init__(self, program, words, path):
        with tempfile.TemporaryFile() as out:
            child = os.fork()
            if child == 0:
                os.dup2(os.open(path, os.O_RDONLY), 0)
                os.dup2(out.fileno(), 1)
                os.execv(program, [program, *words])
            _, self.status, used = os.wait4(child, 0)
            out.seek(0)
            self.text = out.read()
        self.seconds = used.ru_utime + used.ru_stime


def megabytes(program, words, path):
    """The most memory of a run, as GNU time has it: a child of this process would begin with this one's."""
    with open(path, "rb") as document:
        ran = subprocess.run(
            ["/usr/bin/time", "-f", "%M", program, *words], stdin=document, stdout=subprocess.DEVNULL,
            stderr=subprocess.PIPE, text=True
        )
    return int(ran.stderr.split()[-1]) / 1024


def compare(name, programs, words, path, runs):
    """Runs both by turns, and prints a line; whether they printed the same."""
    best = [None, None]
    same = True
    for _ in range(runs):
        turn = [Run(program, words, path) for program in programs]
        same = same and turn[0].text == turn[1].text and turn[0].status == turn[1].status
        for i in (0, 1):
            if best[i] is None or turn[i].seconds < best[i].seconds:
                best[i] = turn[i]
    first, second = (run.seconds for run in best)
    memory = [megabytes(program, words, path) for program in programs]
    print(
        f"{name:>24} {first:8.3f} {second:8.3f} {first / max(second, 0.001):7.2f} {memory[0]:8.1f} "
        f"{memory[1]:8.1f}{'' if same else '   the texts differ'}",
        flush=True,
    )
    return same


def main():
    parser = argparse.ArgumentParser(description=__doc__.splitlines()[0])
    parser.add_argument("program")
    parser.add_argument("rival")
    parser.add_argument("--runs", type=int, default=10)
    parser.add_argument("--hosts", default="4,8,16,32")
    parser.add_argument("--exchanges", default="30,130,330")
    parser.add_argument("--words")
    given = parser.parse_args()
    programs = [os.path.abspath(given.program), os.path.abspath(given.rival)]
    print(f"{'document':>24} {'s':>8} {'rival s':>8} {'ratio':>7} {'MB':>8} {'rival MB':>8}")
    if given.words:
        return not compare(given.words, programs, given.words.split(), "/dev/null", given.runs)
    same = True
    with tempfile.TemporaryDirectory() as room:
        path = os.path.join(room, "document.toml")
        for hosts in given.hosts.split(","):
            for exchanges in given.exchanges.split(","):
                with open(path, "w", encoding="utf-8") as out:
                    out.write(document(int(hosts), int(exchanges)))
                name = f"{hosts} hosts, {exchanges} exchanges"
                same = compare(name, programs, ["replay"], path, given.runs) and same
    return not same


if __name__ == "__main__":
    sys.exit(main())
