#!/usr/bin/env python3
"""cuts.py [PROGRAM]: what is cut off is refused, and changes nothing.

Each front of the example that floods as link-state routing does ends with a status of the table and its line. And
each front of each packet with which four guards agree on an input, given to the receiver of that packet as `bytes`
right behind the input, is dropped as malformed: the trace is the one without them but for these bytes, their drops,
and the numbers of the events behind them. PROGRAM is crates/nysiad/out/nysiad where it isn't given.
"""
import os
import re
import sys

import fuzz
import rows

EXAMPLE = rows.HOME / "examples" / "flood_on_a_ring.toml"
ROW = "a_trace_of_an_input_that_is_agreed_on"
INPUT = b"input 0 5\n"
STEP = re.compile(rb"^step (\d+) ", re.M)


def fault_of_fronts(program):
    """What is wrong with the fronts of the example; empty where nothing is."""
    document = EXAMPLE.read_bytes()
    for size in range(len(document) + 1):
        ended = fuzz.Ended(program, ["bare"], document[:size])
        fault = fuzz.fault_of(ended, program, ["bare"], document[:size])
        if fault:
            return f"the first {size} bytes: {fault}"
    return ""


def fronts_of(trace):
    """The receiver and each non-empty proper front of each packet of a trace."""
    for to, frame in fuzz.PACKET.findall(trace):
        for size in range(2, len(frame), 2):
            yield to, frame[:size]


def with_drops(trace, fronts):
    """The trace with these bytes given, and dropped, in the events from 1 on."""
    later = STEP.sub(lambda line: b"step %d " % (int(line[1]) + len(fronts)), trace)
    given, drops = b"", b""
    for event, (to, front) in enumerate(fronts, 1):
        given += b"bytes %d %s %s\n" % (event, to, front)
        drops += b"step %d bytes to %s dropped malformed\n" % (event, to)
    return later.replace(b"injected\nsteps\n", b"injected\n" + given + b"steps\n" + drops)


def fault_of_packets(program):
    """What is wrong with the fronts of packets; empty where nothing is."""
    [row] = [row for row in rows.all_rows() if row.name == ROW]
    fronts = list(fronts_of(row.text))
    lines = b"".join(b"bytes %s %s\n" % front for front in fronts)
    row.document = row.document.replace(INPUT, INPUT + lines)
    row.text = with_drops(row.text, fronts)
    return rows.run(program, row) if len(fronts) > 1000 else f"{len(fronts)} fronts"


def main():
    program = os.path.abspath(sys.argv[1] if len(sys.argv) > 1 else rows.PROGRAM)
    faults = [fault for fault in (fault_of_fronts(program), fault_of_packets(program)) if fault]
    for fault in faults:
        print(f"cuts: {fault}")
    print(f"cuts: {2 - len(faults)} passed, {len(faults)} failed")
    return bool(faults)


if __name__ == "__main__":
    sys.exit(main())
