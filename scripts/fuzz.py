#!/usr/bin/env python3
"""Runs the program on mutated words and documents, and tests that each call ends as the table of statuses says.

usage: scripts/fuzz.py [--seed N] [--from N] [--count N] [--jobs N] [--log FILE] [PROGRAM]
  --seed N     what the cases are drawn from, with their numbers (default 1)
  --from N     the number of the first case (default 0)
  --count N    how many there are (default 2000)
  --jobs N     how many run at once (default: as many as there are processors)
  --log FILE   cases run in pieces of 10,000; each piece that is done gets a line in FILE, and one that has its line
               there isn't run again: so a long run can be broken off and taken up
  PROGRAM      default crates/nysiad/out/nysiad

A case is drawn from the seed and its number alone. It is a document of examples/ or rows/ whose bytes are flipped, cut,
doubled, taken from another document or replaced by bytes that mean something to the readers: anywhere, or in its
schedule, its machine or its run text; or its schedule is given `bytes` with mutated packets; or words are mutated too.
Documents have at most 64 KB, and their schedules at most 50 `exchange`. Each call must end by itself, with a status of
the table and the line that belongs to it, within a second of processor time and 200 MB, and a second call must print
the same.
"""
import argparse
import collections
import multiprocessing
import os
import pathlib
import random
import re
import resource
import sys

HOME = pathlib.Path(__file__).resolve().parent.parent
sys.path.insert(0, str(HOME / "scripts"))
import rows  # noqa: E402  (the reader of rows/*.rows)

PROGRAM = HOME / "crates" / "nysiad" / "out" / "nysiad"
PIECE = 10_000
MOST_BYTES = 65536
MOST_EXCHANGES = 50
MOST_SECONDS = 1.0
LONGEST_CALL = 20  # seconds of processor time, after which a call is ended
MOST_MEMORY = 200 << 20
MOST_TOLD = 20  # faults of a piece
COMMANDS = ("bare", "verify", "check", "plan", "replay", "trace")
OTHER_WORDS = ("", "-v", "--help", "x", "0", "7", "8", "33", "\u00e9", "ring", "workload", "replay ", "Bare", "-", "--", "=")
# The line of each status; 0 has the text of the command.
LINES = {
    1: r"not a run: step \d+: .*",
    2: r"words: \d+",
    3: r"scenario: .+: (syntax|missing|type|range|unknown)",
    4: r"machine: line \d+ column \d+: \w+",
    5: r"guards: epoch \d+: .*",
    6: r"liars: epoch \d+: host \d+ has \d+",
    7: r"schedule: line \d+: (grammar|host|liar)",
    8: r"no packet: event \d+: \d+ of \d+",
    9: r"forged: event \d+: maker \d+ taker \d+: .*",
    10: r"too large: (input 16777216|events 100000|packets 200000|bytes 67108864)",
    15: r"clash: event \d+: maker \d+ taker \d+: .* \| .*",
}
WORTHY = [
    b"'''", b"[[", b"]]", b"[", b"]", b"=", b"\n", b"\r\n", b"#", b"\"", b"\\", b"\0", b"\xff", b"\xc3\xa9",
    b"0", b"1", b"31", b"32", b"33", b"63", b"64", b"1023", b"1024", b"65535", b"65536", b"4294967295",
    b"4294967296", b"-1", b"9223372036854775807", b"-9223372036854775808", b"9223372036854775808",
    b"hosts", b"links", b"protocol", b"machine", b"schedule", b"run", b"master", b"liars", b"epoch", b"credit",
    b"thresholds", b"guards", b"sum", b"flood", b"input ", b"deliver ", b"flush\n", b"exchange\n", b"ask ", b"bytes ",
    b"say ", b"bundle ", b"steal ", b"wedge\n", b"decide ", b"retire ", b"open\n", b"offer ", b"order ", b"attest ",
    b"report ", b"frozen ", b"inherit ", b"msg ", b"in ", b"receive ", b"stop ", b"var ", b"on ", b"if ", b"for ",
    b"each ", b"send all : ", b"out ", b"{", b"}", b"(", b")", b";", b"4e5902",
]
# A text of a document that is mutated by itself: its key, and what stands between its quotes.
PARTS = {key: re.compile(rb"\b" + key.encode() + rb"\s*=\s*('''\n?|'|\"\"\"\n?|\")(.*?)\1", re.S)
         for key in ("schedule", "machine", "run")}
PACKET = re.compile(rb"^packet \d+ from \d+ to (\d+) ([0-9a-f]+)$", re.M)


class Corpus:
    """What cases begin with: calls that end with status 0 and others, parts of documents by key, and packets."""

    def __init__(self):
        calls = list(rows.all_rows())
        for path in sorted((HOME / "examples").glob("*.toml")):
            call = rows.Row(path.name, 1, path.stem)
            call.document, call.text = path.read_bytes(), path.with_suffix(".out").read_bytes()
            call.words = call.document.split(b"\n")[0].decode().removeprefix("# nysiad ").split(" ")
            call.status = int(b"\n# status " in call.document)
            calls.append(call)
        calls = [call for call in calls if 0 < len(call.document) <= MOST_BYTES]
        self.good = [(call.words, call.document) for call in calls if call.status == 0]
        self.bad = [(call.words, call.document) for call in calls if call.status != 0]
        self.documents = sorted({call.document for call in calls})
        self.parts = {key: [found.group(2) for text in self.documents for found in PARTS[key].finditer(text)]
                      for key in PARTS}
        self.packets = sorted({(int(to), bytes.fromhex(frame.decode())) for call in calls
                               for to, frame in PACKET.findall(call.text)})


def with_line(draw, text, other):
    """The text with lines exchanged, cut, doubled or taken from another."""
    lines, others = text.split(b"\n"), other.split(b"\n")
    here, there = draw.randrange(len(lines)), draw.randrange(len(lines))
    kind = draw.randrange(4)
    if kind == 0:
        lines[here], lines[there] = lines[there], lines[here]
    elif kind == 1:
        del lines[here]
    elif kind == 2:
        lines[there:there] = [lines[here]] * draw.choice((1, 2, 30))
    else:
        lines.insert(here, draw.choice(others))
    return b"\n".join(lines)


def mutated(draw, begun, others):
    """A text near this one, with pieces of others."""
    text = bytearray(begun)
    for _ in range(draw.choice((1, 1, 1, 2, 3, 6))):
        at = draw.randrange(len(text) + 1)
        to = min(len(text), at + draw.choice((1, 1, 2, 4, 16, 200)))
        kind = draw.randrange(10)
        if kind == 0 and at < len(text):
            text[at] ^= 1 << draw.randrange(8)
        elif kind == 1:
            del text[at:to]
        elif kind == 2:
            text[at:at] = text[at:to] * draw.choice((1, 2, 30))
        elif kind == 3:
            other = draw.choice(others)
            begin = draw.randrange(len(other) + 1)
            text[at:to] = other[begin : begin + draw.choice((4, 40, 400))]
        elif kind == 4:
            text[at:to] = draw.choice(WORTHY)
        elif kind == 5:
            text[at:at] = draw.choice(WORTHY)
        else:
            text = bytearray(with_line(draw, bytes(text), draw.choice(others)))
    return bytes(text)


def held(draw, part):
    """The part, mostly without what no text of a document can hold: other bytes than UTF-8, control bytes, quotes."""
    if draw.random() < 0.1:
        return part
    text = part.decode(errors="ignore").replace("'", "").replace('"', "").replace("\\", "")
    return "".join(letter for letter in text if letter >= " " and letter != "\x7f" or letter in "\t\n").encode()


def with_part(draw, document, key, changed):
    """The document with one of its parts of this key changed."""
    begin, end = draw.choice(list(PARTS[key].finditer(document))).span(2)
    return document[:begin] + held(draw, changed(document[begin:end])) + document[end:]


def with_packets(draw, schedule, packets):
    """The schedule with some `bytes` of mutated packets in it."""
    lines = schedule.split(b"\n")
    for _ in range(draw.choice((1, 2, 5))):
        to, frame = draw.choice(packets)
        to = draw.choice((to, to, to, draw.randrange(34)))
        frame = mutated(draw, frame, [other for _, other in packets]) or b"\0"
        lines.insert(draw.randrange(len(lines) + 1), b"bytes %d %s" % (to, frame.hex().encode()))
    return b"\n".join(lines)


def limited(document):
    """The document within its limits of bytes and of `exchange`."""
    parts = document[:MOST_BYTES].split(b"exchange")
    if len(parts) > MOST_EXCHANGES:
        return b"exchange".join(parts[:MOST_EXCHANGES]) + b"".join(parts[MOST_EXCHANGES:])
    return b"exchange".join(parts)


def case_of(seed, number, corpus):
    """The words and the document of a case."""
    draw = random.Random(f"{seed} {number}")
    words, begun = draw.choice(corpus.good if draw.random() < 0.8 else corpus.bad)
    if draw.random() < 0.2:
        words = [draw.choice(COMMANDS)]
    if draw.random() < 0.03:
        words = [draw.choice(COMMANDS + OTHER_WORDS) for _ in range(draw.randrange(4))]
    kind = draw.choice(["document"] + 2 * [key for key in PARTS if PARTS[key].search(begun)])
    if kind == "document":
        document = mutated(draw, begun, corpus.documents)
    elif kind == "schedule" and draw.random() < 0.5:
        document = with_part(draw, begun, kind, lambda part: with_packets(draw, part, corpus.packets))
    else:
        document = with_part(draw, begun, kind, lambda part: mutated(draw, part, corpus.parts[kind]))
    return words, limited(document)


class Ended:
    """How a call ended: its status, negative for a signal, its text, and the seconds of a processor that it took."""

    def __init__(self, program, words, document):
        with open(os.memfd_create("document"), "w+b") as given, open(os.memfd_create("text"), "w+b") as text:
            given.write(document)
            given.seek(0)
            status, used = spawned(program, words, given.fileno(), text.fileno())
            text.seek(0)
            self.text = text.read()
        self.status = os.waitstatus_to_exitcode(status)
        self.seconds = used.ru_utime + used.ru_stime


def spawned(program, words, given, text):
    """Runs a call with these files for input and output, and gives the status and what it used."""
    # A call may not have more memory than this; the limit goes on to it.
    before = resource.getrlimit(resource.RLIMIT_AS)
    resource.setrlimit(resource.RLIMIT_AS, (MOST_MEMORY, before[1]))
    files = [(os.POSIX_SPAWN_DUP2, given, 0), (os.POSIX_SPAWN_DUP2, text, 1), (os.POSIX_SPAWN_DUP2, text, 2)]
    child = os.posix_spawn(program, [program, *words], {}, file_actions=files)
    resource.setrlimit(resource.RLIMIT_AS, before)
    resource.prlimit(child, resource.RLIMIT_CPU, (LONGEST_CALL, LONGEST_CALL))
    _, status, used = os.wait4(child, 0)
    return status, used


def fault_of(ended, program, words, document):
    """What is wrong with a call; None where nothing is."""
    line = LINES.get(ended.status)
    if ended.status != 0 and not (line and re.fullmatch(line + "\n", ended.text.decode(errors="replace"), re.S)):
        return f"status {ended.status} with the text {ended.text[:200]!r}"
    again = Ended(program, words, document)
    if min(ended.seconds, again.seconds) > MOST_SECONDS:
        return f"{ended.seconds:.1f} seconds"
    if (again.status, again.text) != (ended.status, ended.text):
        return "two calls print different texts"
    return None


def tried(job):
    """Tries a case: its number, what is wrong with it, its status and its seconds."""
    seed, number, program = job
    words, document = case_of(seed, number, tried.corpus)
    ended = Ended(program, words, document)
    return number, fault_of(ended, program, words, document), ended.status, ended.seconds


def tell(seed, number, fault):
    """Tells a fault, and keeps the document."""
    words, document = case_of(seed, number, tried.corpus)
    kept = pathlib.Path(os.environ.get("TMPDIR", "/tmp")) / f"fuzz_{seed}_{number}.toml"
    kept.write_bytes(document)
    print(f"fuzz: case {number}: {words}: {fault}; the document is {kept}", flush=True)


def piece(pool, seed, program, numbers):
    """Tries the cases of these numbers, and gives the line that tells of them and how many failed."""
    seen, failed, most = collections.Counter(), 0, 0.0
    jobs = ((seed, number, program) for number in numbers)
    for number, fault, status, seconds in pool.imap_unordered(tried, jobs, 50):
        seen[status] += 1
        most = max(most, seconds)
        failed += fault is not None
        if fault and failed <= MOST_TOLD:
            tell(seed, number, fault)
    statuses = ", ".join(f"{seen[status]} of status {status}" for status in sorted(seen))
    told = f"fuzz: seed {seed}: cases {numbers[0]} to {numbers[-1]}: {len(numbers) - failed} passed, {failed} failed"
    return f"{told} ({statuses}; at most {most:.2f} s)", failed


def main():
    asked = argparse.ArgumentParser(usage=__doc__)
    asked.add_argument("--seed", default="1")
    asked.add_argument("--from", type=int, default=0, dest="first")
    asked.add_argument("--count", type=int, default=2000)
    asked.add_argument("--jobs", type=int, default=os.cpu_count())
    asked.add_argument("--log", type=pathlib.Path)
    asked.add_argument("program", nargs="?", default=PROGRAM)
    asked = asked.parse_args()
    program = os.path.abspath(asked.program)
    tried.corpus = Corpus()
    done = asked.log.read_text() if asked.log and asked.log.exists() else ""
    all_failed, last = 0, asked.first + asked.count
    with multiprocessing.get_context("fork").Pool(asked.jobs) as pool:
        for begin in range(asked.first, last, PIECE):
            numbers = range(begin, min(begin + PIECE, last))
            if f"seed {asked.seed}: cases {numbers[0]} to {numbers[-1]}: " in done:
                continue
            line, failed = piece(pool, asked.seed, program, numbers)
            all_failed += failed
            print(line, flush=True)
            if asked.log:
                with asked.log.open("a") as log:
                    log.write(line + "\n")
    return all_failed != 0


if __name__ == "__main__":
    sys.exit(main())
