#!/usr/bin/env python3
"""Proves and builds the program: crates/nysiad/out/nysiad is replaced only where every proof passed.

It works on a copy of the sources that leaves out the must-fail edits and the crates that the program does not
stand on, so `rt ci` there proves just what the program needs, crates side by side on all processors. What it
proved is kept on this machine, and the gate takes it up (and the other way round). Progress goes to standard
error; the prover's own lines stay in out/build.log.
"""

import os
import shutil
import subprocess
import sys
import tempfile
import threading
import time

TOP = os.path.dirname(os.path.dirname(os.path.abspath(__file__)))
PROGRAM = "nysiad"
BUILT = f"crates/{PROGRAM}/out/{PROGRAM}"
# Its time is when the build that made the program began: sources that are newer are not in it.
STAMP = f"crates/{PROGRAM}/out/built"
LOG = "out/build.log"
PARTS = ("src", "specs", "proofs", "stdin", "stdout", "args", "status", "data")
HEARTBEAT = 60


def crates_below(listed, name):
    """The crates of the repository that one stands on, and itself."""
    found, left = [], [name]
    while left:
        crate = left.pop()
        if crate in listed and crate not in found:
            found.append(crate)
            left += listed[crate]
    return found


def read_crates():
    """Each crate of crates.txt with the crates and libraries that it names, and its line."""
    listed, lines = {}, {}
    with open("crates.txt", encoding="utf-8") as text:
        for line in text:
            head, colon, named = line.partition("#")[0].partition(":")
            if colon:
                crate = head.split()[0]
                listed[crate], lines[crate] = named.split(), line
    return listed, lines


def copy_sources(room):
    """Copies what the program is made of, and says how many crates that are."""
    listed, lines = read_crates()
    wanted = crates_below(listed, PROGRAM)
    for crate in wanted:
        for part in PARTS:
            at = f"crates/{crate}/{part}"
            if os.path.isdir(at):
                shutil.copytree(at, f"{room}/{at}")
            elif os.path.isfile(at):
                os.makedirs(f"{room}/crates/{crate}", exist_ok=True)
                shutil.copyfile(at, f"{room}/{at}")
    with open(f"{room}/crates.txt", "w", encoding="utf-8") as text:
        text.writelines(line for crate, line in lines.items() if crate in wanted)
    shutil.copyfile("HANDLES", f"{room}/HANDLES")
    # The prover looks for the top of a repository.
    os.mkdir(f"{room}/.git")
    return len(wanted)


class Progress:
    """What was proved so far, told on standard error at each crate, and each minute in between."""

    def __init__(self, crates):
        self.crates, self.proved, self.last, self.began, self.is_over = crates, 0, "", time.time(), threading.Event()

    def minutes(self):
        return (time.time() - self.began) / 60

    def say(self, what):
        print(f"nysiad: {what}", file=sys.stderr, flush=True)

    def tell(self):
        at = f", {self.last} the last" if self.last else ""
        self.say(f"{self.proved} of {self.crates} crates are proved{at}; {self.minutes():.0f} minutes so far")

    def read(self, line):
        words = line.split()
        if len(words) > 2 and words[0] == "rt:" and (words[2:] == ["proved"] or words[2:4] == ["is", "kept:"]):
            self.proved, self.last = self.proved + 1, words[1]
            self.tell()

    def beat(self):
        while not self.is_over.wait(HEARTBEAT):
            self.tell()


def prove(room, progress):
    """Runs the prover in the copy, and says whether it passed."""
    os.makedirs("out", exist_ok=True)
    environment = {name: value for name, value in os.environ.items() if name != "CI"}
    with open(LOG, "w", encoding="utf-8") as log:
        run = subprocess.Popen(["rt", "ci"], cwd=room, env=environment, stdin=subprocess.DEVNULL,
                               stdout=subprocess.PIPE, stderr=subprocess.STDOUT, text=True, errors="replace")
        for line in run.stdout:
            log.write(line.replace(room, TOP))
            log.flush()
            progress.read(line)
    return run.wait() == 0


def install(room, stamp):
    """Puts the program in its place, whole at once, and its time beside it."""
    os.makedirs(os.path.dirname(BUILT), exist_ok=True)
    shutil.copyfile(f"{room}/{BUILT}", f"{BUILT}.new")
    os.chmod(f"{BUILT}.new", 0o755)
    os.replace(f"{BUILT}.new", BUILT)
    shutil.move(stamp, STAMP)


def build(room):
    """Proves and builds in the copy; None where all is well, else what is wrong."""
    stamp = f"{room}/built"
    open(stamp, "w", encoding="utf-8").close()
    progress = Progress(copy_sources(room))
    progress.say(f"proving the program first: {progress.crates} crates. This takes a while, once; see README.md")
    threading.Thread(target=progress.beat, daemon=True).start()
    is_proved = prove(room, progress)
    progress.is_over.set()
    if not is_proved:
        return "the proofs did not pass"
    if not os.path.isfile(f"{room}/{BUILT}"):
        return "the build left no program"
    install(room, stamp)
    progress.say(f"proved and built in {progress.minutes():.1f} minutes")
    return None


def main():
    os.chdir(TOP)
    if not shutil.which("rt"):
        wrong = "the Rattle kit is needed: there is no command rt"
    else:
        with tempfile.TemporaryDirectory(prefix="nysiad-build-") as room:
            wrong = build(room)
    if wrong:
        print(f"nysiad: {wrong}; nothing was run. The prover's lines are in {LOG}", file=sys.stderr)
        return 1
    return 0


if __name__ == "__main__":
    sys.exit(main())
