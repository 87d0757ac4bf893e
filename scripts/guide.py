#!/usr/bin/env python3
"""Runs docs/GUIDE.md and the first screen of README.md: each document of the guide is written to a folder of its
own, each command is run there as it is printed, and what it prints is compared with what is shown. A line `..` stands
for any lines. In README.md words behind two spaces are captions, and the first scenario is that of its example.

usage: scripts/guide.py [PROGRAM]    (default: ./nysiad)
"""

import difflib
import os
import re
import shutil
import subprocess
import sys
import tempfile

TOP = os.path.dirname(os.path.dirname(os.path.abspath(__file__)))
GUIDE = os.path.join(TOP, "docs", "GUIDE.md")
README = os.path.join(TOP, "README.md")
FIRST = os.path.join(TOP, "examples", "one_message_lost.toml")
BLOCK = re.compile(r"^```(\w+)(?: (\S+))?\n(.*?)^```$", re.M | re.S)
# What a block `sh` of the guide needs, whose last line is what the others print. It is passed over where one is missing.
BY_HAND = ("openssl", "xxd")
PLAIN = re.compile(r"^```\n(.*?)^```$", re.M | re.S)


def is_shown(wanted, printed):
    """Whether the lines are those of the guide, `..` there standing for any lines."""
    pattern = "".join("(?:.*\n)*" if line == ".." else re.escape(line) + "\n" for line in wanted)
    return re.fullmatch(pattern, "".join(line + "\n" for line in printed)) is not None


def commands_of(text):
    """Each command of a block with the lines that the guide shows after it."""
    found = []
    for line in text.splitlines():
        if line.startswith("$ "):
            found.append((line[2:], []))
        else:
            found[-1][1].append(line)
    return found


def read(path):
    with open(path, encoding="utf-8") as file:
        return file.read()


def is_as_shown(command, wanted, room):
    """Runs a command and says where it prints other lines than are shown."""
    ran = subprocess.run(["bash", "-c", command], cwd=room, stdout=subprocess.PIPE, stderr=subprocess.DEVNULL, text=True)
    printed = ran.stdout.splitlines()
    if is_shown(wanted, printed):
        return True
    print(f"guide: {command}")
    print("\n".join(difflib.unified_diff(wanted, printed, "shown", "printed", lineterm="")))
    return False


def guide_runs(room):
    """Whether each command of the guide prints what is shown."""
    for kind, name, text in BLOCK.findall(read(GUIDE)):
        if kind == "toml":
            with open(os.path.join(room, name), "w", encoding="utf-8") as document:
                document.write(text)
        elif kind == "console":
            for command, wanted in commands_of(text):
                yield is_as_shown(command, wanted, room)
        elif kind == "sh" and all(map(shutil.which, BY_HAND)):
            *script, last = text.splitlines()
            yield is_as_shown("\n".join(script), [last], room)


def readme_runs(room):
    """Whether the first screen shows its example, and each command of it prints what is shown."""
    scenario, *others = PLAIN.findall(read(README))
    bare = "".join(line for line in read(FIRST).splitlines(True) if not line.startswith("#"))
    if scenario != bare:
        print("guide: the first scenario of README.md isn't examples/one_message_lost.toml")
    yield scenario == bare
    for text in others:
        if text.startswith("$ "):
            for command, wanted in commands_of(re.sub("  +.*", "", text)):
                yield is_as_shown(command, wanted, room)


def main():
    program = os.path.abspath(sys.argv[1] if len(sys.argv) > 1 else os.path.join(TOP, "nysiad"))
    with tempfile.TemporaryDirectory() as room:
        os.symlink(program, os.path.join(room, "nysiad"))
        for folder in ("scripts", "examples"):
            os.symlink(os.path.join(TOP, folder), os.path.join(room, folder))
        runs = [*readme_runs(room), *guide_runs(room)]
    print(f"guide: {sum(runs)} passed, {len(runs) - sum(runs)} failed")
    return not all(runs)


if __name__ == "__main__":
    sys.exit(main())
