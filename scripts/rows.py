#!/usr/bin/env python3
"""rows.py [PROGRAM] [ONLY..]: runs the rows of rows/*.rows by the program, and tells which differ.

PROGRAM is crates/nysiad/out/nysiad where it isn't given. An ONLY is a part of a row's name or of its file's
name; with any, only rows that have one are run. docs/ROWS.md says how a row is written.
"""
import concurrent.futures
import difflib
import os
import pathlib
import re
import shlex
import subprocess
import sys

HOME = pathlib.Path(__file__).resolve().parent.parent
PROGRAM = HOME / "crates" / "nysiad" / "out" / "nysiad"
LONGEST_RUN = 60  # seconds
MOST_SHOWN = 60  # lines of a difference
ESCAPE = re.compile(rb"\\(x[0-9a-f]{2}|[nrt\\])")
LETTERS = {b"n": b"\n", b"r": b"\r", b"t": b"\t", b"\\": b"\\"}


class Row:
    """A call of the program, and what it must come to."""

    def __init__(self, file, line, name):
        self.file, self.line, self.name = file, line, name
        self.words = self.document = self.text = None
        self.status = 0

    def place(self):
        return f"{self.file}:{self.line}: {self.name}"


def unescaped(text):
    """The bytes that a text with escapes stands for."""
    def byte_of(found):
        escape = found.group(1)
        return LETTERS.get(escape) or bytes([int(escape[1:], 16)])
    return ESCAPE.sub(byte_of, text)


def bytes_of(lines):
    """The bytes that the lines of a section stand for."""
    made = []
    for line in lines:
        if line.startswith(b"@lines "):
            _, times, text = line.split(b" ", 2)
            made.append((unescaped(text) + b"\n") * int(times))
        elif line.startswith(b"@bytes "):
            _, times, text = line.split(b" ", 2)
            made.append(unescaped(text) * int(times))
        else:
            made.append(line + b"\n")
    return b"".join(made)


def entries(path):
    """The entries of a file: the line number and the words of each title, and the lines below it."""
    found = []
    for number, line in enumerate(path.read_bytes().split(b"\n"), 1):
        if line.startswith(b"=== "):
            found.append((number, line.decode().split()[1:], []))
        elif found:
            found[-1][2].append(line)
    for _, _, lines in found:
        if lines and lines[-1] == b"":
            lines.pop()
    return found


def sections(lines):
    """The title and the lines of each section of an entry; the head of a row has no title."""
    found = [([], [])]
    for line in lines:
        if line.startswith(b"--- "):
            found.append((line.decode().split()[1:], []))
        else:
            found[-1][1].append(line)
    return found


def read_row(row, lines, blocks):
    """Sets the words, the document, the status and the text of a row."""
    for title, below in sections(lines):
        if not title:
            call = [line.decode() for line in below if not line.startswith(b"#")]
            if len(call) != 1 or shlex.split(call[0])[:1] != ["nysiad"]:
                raise ValueError("one line with the words is wanted")
            row.words = shlex.split(call[0])[1:]
        elif title[0] == "document":
            row.document = b"".join(blocks[name] for name in title[1:]) + bytes_of(below)
        elif title[0] == "text":
            row.text = b"".join(blocks[name] for name in title[1:]) + bytes_of(below)
        elif title[0] == "status":
            row.status, row.text = int(title[1]), bytes_of(below)
        else:
            raise ValueError(f"a section {title[0]}")
    if row.document is None or row.text is None:
        raise ValueError("a document and a text are wanted")


def rows_of(path):
    """The rows of a file."""
    rows, blocks = [], {}
    for number, title, lines in entries(path):
        try:
            if title[0] == "block":
                blocks[title[1]] = bytes_of(lines)
                continue
            if title[0] != "row":
                raise ValueError("a block or a row is wanted")
            rows.append(Row(path.name, number, title[1]))
            read_row(rows[-1], lines, blocks)
        except (KeyError, IndexError, ValueError) as fault:
            sys.exit(f"{path.name}:{number}: {' '.join(title)}: {fault}")
    return rows


def all_rows(folder=HOME / "rows"):
    """The rows of all files; no two have one name."""
    rows = [row for path in sorted(folder.glob("*.rows")) for row in rows_of(path)]
    seen = {}
    for row in rows:
        if row.name in seen:
            sys.exit(f"{row.place()}: the name of {seen[row.name].place()}")
        seen[row.name] = row
    return rows


def lines_for_diff(status, text):
    shown = text.decode("utf-8", "backslashreplace").split("\n")
    return [f"status {status}"] + [repr(line)[1:-1] for line in shown]


def difference(row, status, text, errors):
    """What a call came to beside what it must come to; empty where they are equal."""
    if (status, text, errors) == (row.status, row.text, b""):
        return ""
    wanted, found = lines_for_diff(row.status, row.text), lines_for_diff(status, text)
    if errors:
        found.append("on standard error: " + repr(errors[:200]))
    shown = list(difflib.unified_diff(wanted, found, "wanted", "found", lineterm=""))
    if len(shown) > MOST_SHOWN:
        shown[MOST_SHOWN:] = [f"and {len(shown) - MOST_SHOWN} lines more"]
    return "\n".join([row.place()] + shown)


def run(program, row):
    """The difference that a run of the row shows."""
    try:
        ended = subprocess.run([program, *row.words], input=row.document, capture_output=True, timeout=LONGEST_RUN)
    except subprocess.TimeoutExpired:
        return f"{row.place()}\nno end after {LONGEST_RUN} s"
    return difference(row, ended.returncode, ended.stdout, ended.stderr)


def main():
    program = os.path.abspath(sys.argv[1] if len(sys.argv) > 1 else PROGRAM)
    if not os.access(program, os.X_OK):
        sys.exit(f"{program}: no program")
    only = sys.argv[2:]
    rows = [row for row in all_rows() if not only or any(part in row.name or part in row.file for part in only)]
    failed = 0
    # The dear rows first, so that none of them is left alone at the end.
    rows.sort(key=lambda row: -len(row.document))
    with concurrent.futures.ThreadPoolExecutor(os.cpu_count()) as pool:
        for shown in pool.map(lambda row: run(program, row), rows):
            if shown:
                failed += 1
                print(shown, flush=True)
    print(f"rows: {len(rows) - failed} passed, {failed} failed")
    sys.exit(1 if failed or not rows else 0)


if __name__ == "__main__":
    main()
