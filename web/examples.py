#!/usr/bin/env python3
"""Writes web/examples.js, the list of the page: each example of a command of one word, and its stored text.

usage: web/examples.py [PROGRAM]    (default: ./nysiad)

Of a replay the page draws its trace. Where the page can't run the program it takes what PROGRAM made of it here.
examples.js is made from the sources, so it is no file of the repository.
"""

import json
import pathlib
import subprocess
import sys

HOME = pathlib.Path(__file__).resolve().parent.parent
COMMANDS = ("bare", "verify", "check", "plan", "replay", "trace")


def status_of(scenario):
    """The status with which an example ends: its second line says so where it isn't 0."""
    second = scenario.split("\n", 2)[1]
    return int(second.removeprefix("# status ")) if second.startswith("# status ") else 0


def trace_of(program, scenario):
    """What the program traces of a scenario; nothing where it can't."""
    ran = subprocess.run([program, "trace"], input=scenario.encode(), capture_output=True, check=False)
    return ran.stdout.decode() if ran.returncode == 0 else None


def read_example(path, program):
    """An example as the page has it, or nothing where its command has more words than one."""
    scenario = path.read_text(encoding="utf-8")
    words = scenario.split("\n", 1)[0].removeprefix("# nysiad ").split()
    if len(words) != 1 or words[0] not in COMMANDS:
        return None
    made = {"command": words[0], "scenario": scenario, "status": status_of(scenario)}
    made["text"] = path.with_suffix(".out").read_text(encoding="utf-8")
    trace = trace_of(program, scenario) if words[0] == "replay" else None
    return made | ({"trace": trace} if trace else {})


def main():
    program = str(pathlib.Path(sys.argv[1]).resolve() if len(sys.argv) > 1 else HOME / "nysiad")
    read = {path.stem: read_example(path, program) for path in sorted((HOME / "examples").glob("*.toml"))}
    examples = {name: example for name, example in read.items() if example}
    with open(HOME / "web" / "examples.js", "w", encoding="utf-8") as made:
        made.write('// Made by web/examples.py.\n"use strict";\n\nconst EXAMPLES = ' + json.dumps(examples, indent=1) + ";\n")
    print(f"examples.js: {len(examples)} examples")


if __name__ == "__main__":
    main()
