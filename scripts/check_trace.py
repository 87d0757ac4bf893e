#!/usr/bin/env python3
"""check_trace.py DOCUMENT [TRACE]: checks a trace by the key of its document, with no code of the program's.

TRACE is a file with what `nysiad trace` printed for DOCUMENT; without it, it is read from standard input.
Of the trace it verifies, in plain Python and by the rules of docs/FORMATS.md and docs/RULES.md alone:

- packets are numbered from 0, and each step names a packet that was sent to its taker, or bytes that the
  same event gave;
- each packet or byte string that was taken is a record, and has a tag for its taker that verifies by HMAC;
- the printed run is a run of the source system, for the protocols `sum` and `flood`, and the hosts and the
  guards are printed as it leaves them;
- each input and receive of that run has its evidence among what was taken: the votes of enough guards other
  than the taker, and for a message attestations too.

Who holds the key can make any tag, so a trace that passes convicts nobody: it shows that the printed packets
bear out the printed run. The last line says what was checked; a fault is told in one line, with status 1.
"""
import collections
import hashlib
import hmac
import sys
import tomllib

OLYMPUS = 32
KINDS = ["", "offer", "order", "deliver", "attest", "ask", "wedge", "report", "frozen", "open", "inherit"]
PROTOCOLS = ("sum", "flood")
WITH_CONTENT = {"offer", "order", "deliver", "report", "inherit"}


class Fault(Exception):
    """What is wrong with a trace."""


def need(truth, what):
    """Refuses the trace where something that it needs isn't so."""
    if not truth:
        raise Fault(what)


class Epoch:
    """Who guards whom: the threshold and the guards of each host."""

    def __init__(self, table, hosts, near):
        self.thresholds = table.get("thresholds", [table["t"]] * hosts)
        if "guards" in table:
            self.guards = [set(guards) for guards in table["guards"]]
        else:
            self.guards = [self.planned(h, hosts, near) for h in range(hosts)]

    def planned(self, h, hosts, near):
        """The first 3T+1 hosts of h's component, then of the others, and h; T is the component's greatest threshold."""
        reached = {h}
        while more := set().union(*(near[a] for a in reached)) - reached:
            reached |= more
        greatest = max(self.thresholds[a] for a in reached)
        order = sorted(reached) + sorted(set(range(hosts)) - reached)
        return set(order[: 3 * greatest + 1]) | {h}

    def quorum(self, h):
        return (len(self.guards[h]) + self.thresholds[h]) // 2 + 1


class Scenario:
    """What a document says."""

    def __init__(self, document):
        self.hosts = document["hosts"]
        self.near = [set() for _ in range(self.hosts)]
        for a, b in document["links"]:
            self.near[a].add(b)
            self.near[b].add(a)
        self.protocol = document["protocol"]
        self.master = bytes.fromhex(document["master"])
        self.liars = set(document.get("liars", []))
        self.epochs = [Epoch(table, self.hosts, self.near) for table in document["epoch"]]

    def is_honest(self, party):
        return party == OLYMPUS or party in set(range(self.hosts)) - self.liars

    def tag(self, maker, receiver, spelling):
        """The HMAC of maker, receiver and statement under the key of the pair, which comes from the master key."""
        pair = b"nysiad-pair" + bytes([min(maker, receiver), max(maker, receiver)])
        key = hmac.digest(self.master, pair, "sha256")
        return hmac.digest(key, bytes([maker, receiver]) + spelling, "sha256")


class Record:
    """A statement with its makers' tags, read from the bytes of a packet."""

    def __init__(self, frame):
        self.frame, self.at = frame, 0
        need(self.bytes(3) == b"NY\2", "a record that was taken has another head")
        self.statement = self.read_statement()
        self.makers = {self.number(1): self.read_tags() for _ in range(self.number(1))}
        need(self.at == len(frame), "a record that was taken has more bytes")

    def bytes(self, count):
        self.at += count
        need(self.at <= len(self.frame), "a record that was taken is too short")
        return self.frame[self.at - count : self.at]

    def number(self, count):
        return int.from_bytes(self.bytes(count))

    def read_statement(self):
        """The statement: its kind, its epoch and its parts. A payload stands behind its digest."""
        begin = self.at
        kind = KINDS[self.number(1)]
        parts = [kind, self.number(2)]
        digest = None
        if kind in WITH_CONTENT:
            parts += [self.number(1), self.number(2)]
            parts += ["msg", self.number(1), self.number(2)] if self.number(1) else ["in"]
            digest = self.bytes(32)
        elif kind == "attest":
            parts += [self.number(1), self.number(1), self.number(2)]
            digest = self.bytes(32)
        elif kind in ("ask", "frozen"):
            parts += [self.number(1), self.number(2)]
        elif kind == "open":
            parts += [self.number(2) for _ in range(self.number(1))]
        self.spelling = self.frame[begin : self.at]
        return tuple(parts + ([self.read_payload(digest)] if digest else []))

    def read_payload(self, digest):
        begin = self.at
        payload = tuple(int.from_bytes(self.bytes(8), signed=True) for _ in range(self.number(2)))
        spelled = self.frame[begin : self.at]
        need(hashlib.sha256(spelled).digest() == digest, "a record that was taken has another payload than its digest's")
        return payload

    def read_tags(self):
        return {self.number(1): self.bytes(32) for _ in range(self.number(1))}

    def makers_for(self, scenario, taker):
        """The makers other than the taker whose tags for the taker verify."""
        return {
            maker
            for maker, tags in self.makers.items()
            if maker != taker and tags.get(taker) == scenario.tag(maker, taker, self.spelling)
        }


class Trace:
    """The lines of a trace, by section."""

    def __init__(self, text):
        names = ["packets", "injected", "steps", "run", "hosts", "guards", "notes", "end"]
        self.sections = {}
        for line in text.splitlines():
            if names and line == names[0]:
                lines = self.sections[names.pop(0)] = []
            else:
                need(self.sections, "the trace doesn't begin with its packets")
                lines.append(line.split())
        need(not names and not lines, f"the trace has no section {names[0]}" if names else "the trace goes on after its end")

    def packets(self):
        """Each packet's receiver and bytes, in order of sending."""
        found = []
        for word, k, _, _, _, to, digits in self.sections["packets"]:
            need((word, int(k)) == ("packet", len(found)), f"packet {len(found)} is missing, or printed twice")
            found.append((int(to), bytes.fromhex(digits)))
        return found

    def injected(self):
        """By event: the party and the bytes that it was given."""
        return {int(e): (int(to), bytes.fromhex(digits)) for _, e, to, digits in self.sections["injected"]}

    def takes(self):
        """For each step the taker, the bytes and what became of them."""
        packets, injected = self.packets(), self.injected()
        for _, event, what, *words in self.sections["steps"]:
            k = int(words.pop(0)) if what == "packet" else None
            need(k is None or k < len(packets), f"a step names packet {k}, which wasn't sent")
            to, frame = injected[int(event)] if k is None else packets[k]
            need(words[:2] == ["to", str(to)], f"a step gives what was for {to} to another: {' '.join(words)}")
            yield to, frame, words[2:]


def seen_by(scenario, trace):
    """By taker and statement: the other makers whose tags verify in something that the taker took."""
    seen, taken = collections.defaultdict(set), 0
    for to, frame, fate in trace.takes():
        need(scenario.is_honest(to), f"a step is one of {to}, which lies or is no party")
        if fate == ["taken"]:
            record = Record(frame)
            makers = record.makers_for(scenario, to)
            need(makers, f"{to} took {' '.join(map(str, record.statement))}, and no tag for it verifies")
            seen[to, record.statement] |= makers
            taken += 1
    return seen, taken


class System:
    """The source system: hosts that run a protocol with no guards."""

    def __init__(self, scenario):
        need(scenario.protocol in PROTOCOLS, f"the runs of `{scenario.protocol}` aren't checked")
        self.scenario = scenario
        self.states = [0] * scenario.hosts
        self.outs = [[] for _ in range(scenario.hosts)]
        self.running = set(range(scenario.hosts))
        self.sent, self.received = collections.defaultdict(list), collections.Counter()
        self.past = [[self.shown(h)] for h in range(scenario.hosts)]

    def take(self, h, word, *numbers):
        """A step of h: the content that it takes, or nothing for a stop."""
        need(h in self.running, f"the run has a step of {h}, which doesn't run")
        if word == "stop":
            self.running.remove(h)
            return None
        if word == "input":
            content, sender, payload = ("in", tuple(numbers)), None, tuple(numbers)
        else:
            sender, k = numbers
            sent = self.sent[sender, h]
            need(k == self.received[sender, h] < len(sent), f"{h} received message {k} of {sender}, which can't come then")
            self.received[sender, h] += 1
            content, payload = ("msg", sender, k, sent[k]), sent[k]
        getattr(self, self.scenario.protocol)(h, sender, payload)
        self.past[h].append(self.shown(h))
        return content

    def send(self, h, others, payload):
        for other in sorted(others):
            self.sent[h, other].append(payload)

    def sum(self, h, sender, payload):
        """Adds the numbers; tells an input to each neighbour, and puts the sum out for a message."""
        total = self.states[h]
        for number in payload:
            total += number
            if not -(2**63) <= total < 2**63:
                return
        self.states[h] = total
        if sender is None:
            self.send(h, self.scenario.near[h], payload)
        else:
            self.outs[h].append((total,))

    def flood(self, h, sender, payload):
        """Keeps a greater first number, and passes the payload on to all neighbours but its sender."""
        if payload[0] > self.states[h]:
            self.states[h] = payload[0]
            self.outs[h].append(payload)
            self.send(h, self.scenario.near[h] - {sender}, payload)

    def shown(self, h):
        """The state and the outputs, as they are printed."""
        outs = [",".join(map(str, out)) for out in self.outs[h]]
        return ["state", str(self.states[h]), "out", *(outs or ["-"])]


def has_evidence(scenario, seen, epoch_number, h, slot, content):
    """Whether what was taken in an epoch bears out a content in a slot of h's log."""
    epoch = scenario.epochs[epoch_number]
    guards, honest = epoch.guards[h], epoch.guards[h] - scenario.liars
    vote = ("deliver", epoch_number, h, slot, *content)
    report = ("report", epoch_number, h, slot, *content)
    logged = any(len(seen[g, vote] & guards) >= epoch.quorum(h) - 1 for g in honest)
    decided = len(seen[OLYMPUS, report] & guards) >= epoch.thresholds[h] + 1
    if content[0] == "in" or not (logged or decided):
        return logged or decided
    _, p, k, payload = content
    attest = ("attest", epoch_number, p, h, k, payload)
    return any(len(seen[g, attest] & guards & epoch.guards[p]) >= epoch.thresholds[p] for g in honest)


def check(scenario, trace):
    """Checks a trace; the counts of packets, takings and steps of the run."""
    seen, taken = seen_by(scenario, trace)
    system, slots = System(scenario), collections.Counter()
    for h, word, *numbers in trace.sections["run"]:
        h = int(h)
        content = system.take(h, word, *map(int, numbers))
        if content:
            found = any(has_evidence(scenario, seen, e, h, slots[h], content) for e in range(len(scenario.epochs)))
            need(found, f"slot {slots[h]} of {h} has {' '.join(map(str, content))} without evidence")
            slots[h] += 1
    for _, h, how, *shown in trace.sections["hosts"]:
        runs = "running" if int(h) in system.running else "stopped"
        need([how, *shown] == [runs, *system.shown(int(h))], f"host {h} is printed otherwise than the run leaves it")
    for _, g, _, h, _, _, length, *shown in trace.sections["guards"]:
        past = system.past[int(h)]
        need(int(length) < len(past) and shown == past[int(length)], f"guard {g} has another {h} than the run")
    return len(trace.sections["packets"]), taken, sum(slots.values())


def main():
    with open(sys.argv[1], "rb") as file:
        scenario = Scenario(tomllib.load(file))
    text = open(sys.argv[2]).read() if len(sys.argv) > 2 else sys.stdin.read()
    try:
        packets, taken, steps = check(scenario, Trace(text))
    except Fault as fault:
        print(f"refused: {fault}")
        return 1
    print(f"{packets} packets, {taken} takings and {steps} steps of the run: all borne out")
    return 0


if __name__ == "__main__":
    sys.exit(main())
