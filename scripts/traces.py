#!/usr/bin/env python3
"""traces.py [PROGRAM]: two checks of each trace of the rows and the examples that ends with status 0.

What `replay` prints for the same document is its last part; and where `check_trace.py` knows the protocol,
it finds the trace borne out by the document's key. PROGRAM is crates/nysiad/out/nysiad where it isn't given. Documents of `replay` among the
examples are traced too.
"""
import os
import subprocess
import sys
import tomllib

import check_trace
import rows


def documents():
    """The name and the bytes of each document: of the rows of `trace`, and of examples of `trace` and `replay`."""
    for row in rows.all_rows():
        if row.words == ["trace"] and row.status == 0:
            yield row.name, row.document
    for path in sorted((rows.HOME / "examples").glob("*.toml")):
        words, more = path.read_text().split("\n")[:2]
        if words in ("# nysiad trace", "# nysiad replay") and not more.startswith("# status "):
            yield path.name, path.read_bytes()


def printed(program, word, document):
    ended = subprocess.run([program, word], input=document, capture_output=True, timeout=rows.LONGEST_RUN)
    return ended.stdout.decode() if ended.returncode == 0 else f"status {ended.returncode}\n"


def fault(program, document):
    """What is wrong with the trace of a document; empty where nothing is."""
    trace = printed(program, "trace", document)
    if not trace.endswith("\n" + printed(program, "replay", document)):
        return "it doesn't end with the report"
    said = tomllib.loads(document.decode())
    if said["protocol"] not in check_trace.PROTOCOLS:
        return ""
    try:
        check_trace.check(check_trace.Scenario(said), check_trace.Trace(trace))
    except check_trace.Fault as found:
        return str(found)
    return ""


def main():
    program = os.path.abspath(sys.argv[1] if len(sys.argv) > 1 else rows.PROGRAM)
    found = [(name, fault(program, document)) for name, document in documents()]
    wrong = [f"{name}: {what}" for name, what in found if what]
    for line in wrong:
        print(line)
    print(f"traces: {len(found) - len(wrong)} passed, {len(wrong)} failed")
    sys.exit(1 if wrong or not found else 0)


if __name__ == "__main__":
    main()
