#!/usr/bin/env python3
"""Tests of check_trace.py by traces that are made up: which evidence is enough, and what is refused.

Four hosts guard one another and one of them may lie, so a quorum is three: guard 1 needs the votes of two
others to log an input of host 0.
"""
import hashlib
import struct
import sys

import check_trace

DOCUMENT = {"hosts": 4, "links": [[0, 1]], "protocol": "sum", "master": "00" * 32, "epoch": [{"t": 1, "credit": 4}]}
SCENARIO = check_trace.Scenario(DOCUMENT)
PAYLOAD = struct.pack(">Hq", 1, 5)
VOTE = struct.pack(">BHBHB", 3, 0, 0, 0, 0) + hashlib.sha256(PAYLOAD).digest()
REPORT = "run\n0 input 5\nhosts\nhost 0 running state 5 out -\nguards\nguard 1 of 0 live at 1 state 5 out -\nnotes\nend\n"


def vote(maker, taker, spoil=0):
    """A packet's line but for its number: a record in which one maker votes to deliver the input 5 of host 0."""
    tag = SCENARIO.tag(maker, taker, VOTE)
    tag = bytes([tag[0] ^ spoil]) + tag[1:]
    record = b"NY\2" + VOTE + PAYLOAD + bytes([1, maker, 1, taker]) + tag
    return f"from {maker} to {taker} {record.hex()}"


def trace(votes, fates, report=REPORT, numbers=None):
    """A trace in which all these packets are sent, and all are given in event 1, with these fates."""
    packets = [f"packet {k} {line}\n" for k, line in zip(numbers or range(len(votes)), votes)]
    steps = [f"step 1 packet {k} to {line.split()[3]} {fate}\n" for k, (line, fate) in enumerate(zip(votes, fates))]
    return "".join(["packets\n", *packets, "injected\n", "steps\n", *steps, report])


def passes(text):
    try:
        check_trace.check(SCENARIO, check_trace.Trace(text))
    except check_trace.Fault:
        return False
    return True


TAKEN, DROPPED = "taken", "dropped slot"
TWO = [vote(0, 1), vote(2, 1)]
CASES = [
    ("two other guards' votes are enough", True, trace(TWO, [TAKEN, TAKEN])),
    ("one is not", False, trace(TWO[:1], [TAKEN])),
    ("the taker's own tag doesn't count", False, trace([vote(0, 1), vote(1, 1)], [TAKEN, TAKEN])),
    ("nor does a vote that was dropped", False, trace(TWO, [TAKEN, DROPPED])),
    ("nor one vote that was given twice", False, trace([vote(0, 1), vote(0, 1)], [TAKEN, TAKEN])),
    ("nor votes that two guards took, one each", False, trace([vote(0, 1), vote(2, 3)], [TAKEN, TAKEN])),
    ("what is taken has a tag that verifies", False, trace([*TWO, vote(3, 1, spoil=1)], [TAKEN] * 3)),
    ("a packet with another tag may be dropped", True, trace([*TWO, vote(3, 1, spoil=1)], [TAKEN, TAKEN, "dropped no tag"])),
    ("evidence is for the content that the run has", False, trace(TWO, [TAKEN] * 2, REPORT.replace("5", "7"))),
    ("the hosts are as the run leaves them", False, trace(TWO, [TAKEN] * 2, REPORT.replace("host 0 running state 5", "host 0 running state 6"))),
    ("a guard has its host as the run has it", False, trace(TWO, [TAKEN] * 2, REPORT.replace("live at 1 state 5", "live at 0 state 5"))),
    ("packets are numbered from 0", False, trace(TWO, [TAKEN] * 2, numbers=[1, 2])),
    ("each packet is printed once", False, trace(TWO, [TAKEN] * 2, numbers=[0, 0])),
    ("the trace ends", False, trace(TWO, [TAKEN] * 2, REPORT.removesuffix("end\n"))),
]


def main():
    wrong = [name for name, wanted, text in CASES if passes(text) != wanted]
    for name in wrong:
        print(f"check_trace: not so: {name}")
    print(f"check_trace: {len(CASES) - len(wrong)} passed, {len(wrong)} failed")
    return 1 if wrong else 0


if __name__ == "__main__":
    sys.exit(main())
