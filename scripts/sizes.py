#!/usr/bin/env python3
"""sizes.py [PROGRAM]: the deepest and the largest documents, and what each takes.

Prints for each the seconds, the memory, and the smallest stack of 64, 128, .. KB with which it ends the same way. Each
must end as is wanted, with less than 500 MB and a stack of 8 MB. PROGRAM is crates/nysiad/out/nysiad where it isn't
given. Needs GNU time.
"""
import os
import subprocess
import sys
import tempfile

import rows

LARGEST = 1 << 24  # bytes of an input
MOST_MEMORY = 500  # MB
LONGEST_CALL = 100  # seconds of a processor
STACKS = [64 << power for power in range(8)]  # KB; the last is what a system gives
ROWS = (
    "sixty_four_levels_of_blocks", "the_deepest_parentheses_are_evaluated", "the_deepest_minuses_are_evaluated",
    "a_chain_of_32000_sums_is_a_fault", "one_hundred_thousand_events", "one_hundred_thousand_steps",
    "one_hundred_thousand_events_of_a_replay", "two_hundred_thousand_messages", "two_hundred_thousand_packets",
    "an_input_of_16777216_bytes",
)
GRAMMAR = b"schedule: line 1: grammar\n"
INPUT = b"schedule = 'input 0"
LINE = b"hosts = 3\nlinks = [[0, 1], [1, 2]]\nprotocol = 'sum'\n"
IDLE = b"run\nhosts\n" + b"".join(b"host %d running state 0 out -\n" % h for h in range(3)) + b"end\n"


def filled(begun, again, end):
    """A document that begins and ends so, with one piece again and again between, as large as an input can be."""
    return begun + again * ((LARGEST - len(begun) - len(end)) // len(again)) + end


def made(name, word, document, status, line):
    """A case like a row."""
    row = rows.Row("sizes.py", 0, name)
    row.words, row.document, row.status, row.text = [word], document, status, line
    return row


def cases():
    """What is run."""
    known = {row.name: row for row in rows.all_rows()}
    yield from (known[name] for name in ROWS)
    yield made("an_array_of_16_MB", "bare", filled(b"hosts = [", b"0,", b"0]\n"), 3, b"scenario: hosts: type\n")
    yield made("tables_of_16_MB", "bare", filled(b"", b"[[a]]\n", b""), 3, b"scenario: hosts: missing\n")
    yield made("brackets_of_16_MB", "bare", filled(b"hosts = ", b"[", b""), 3, b"scenario: document: syntax\n")
    yield made("a_key_of_16_MB", "bare", filled(b"a", b".a", b" = 1\n"), 3, b"scenario: document: syntax\n")
    yield made("a_comment_of_16_MB", "bare", filled(LINE + b"#", b"x", b"\n"), 0, IDLE)
    yield made("a_line_of_16_MB", "bare", filled(LINE + INPUT, b" 1", b"'\n"), 7, GRAMMAR)
    yield made("a_number_of_16_MB", "bare", filled(LINE + INPUT + b" ", b"1", b"'\n"), 7, GRAMMAR)


def called(program, row, document, stack):
    """What differs from what is wanted, the seconds and the MB of a call with a stack of so many KB."""
    with tempfile.NamedTemporaryFile() as used:
        measure = f'ulimit -s {stack} -t {LONGEST_CALL}; exec /usr/bin/time -o {used.name} -f "%U %S %M" "$@"'
        words = ["bash", "-c", measure, "_", program, *row.words]
        ended = subprocess.run(words, stdin=open(document, "rb"), capture_output=True)
        *_, last = used.read().decode().split("\n")[:-1]
    user, system, kilobytes = last.split(" ")
    fault = rows.difference(row, ended.returncode, ended.stdout, ended.stderr)
    return fault, float(user) + float(system), int(kilobytes) / 1024


def smallest_stack(program, row, document):
    """The smallest stack, in KB, with which the call ends as is wanted."""
    for stack in STACKS:
        if not called(program, row, document, stack)[0]:
            return stack
    return 0


def measured(program, row):
    """Runs a case, prints what it takes, and tells whether it is at fault."""
    with tempfile.NamedTemporaryFile() as document:
        document.write(row.document)
        document.flush()
        fault, seconds, megabytes = called(program, row, document.name, STACKS[-1])
        stack = smallest_stack(program, row, document.name)
    print(f"{row.name:42} status {row.status:2} {seconds:6.2f} s {megabytes:5.0f} MB, stack {stack:5} KB", flush=True)
    if fault:
        print(fault[:2000], flush=True)
    return bool(fault) or megabytes >= MOST_MEMORY


def main():
    program = os.path.abspath(sys.argv[1] if len(sys.argv) > 1 else rows.PROGRAM)
    failed = [row.name for row in cases() if measured(program, row)]
    print(f"sizes: {len(failed)} failed: {' '.join(failed)}")
    return bool(failed)


if __name__ == "__main__":
    sys.exit(main())
