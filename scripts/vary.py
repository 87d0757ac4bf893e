#!/usr/bin/env python3
"""Writes variants of a scenario: its schedule with packets lost, repeated and late, and with liars' lines put in.

usage: scripts/vary.py SCENARIO SEED COUNT FOLDER [PROGRAM]    (default: ./nysiad)

Each variant is FOLDER/NAME_SEED_I.toml, a document for `replay`. What is drawn depends on the scenario's text and
the seed alone. A line `exchange` or `flush` becomes a line `deliver` for each packet that is drawn. Of those that it
would give and that the variant hasn't given yet, some are lost for good and as many wait for the next such line: none
or up to one in eight, as is drawn for the variant. Of those that were given before, one in sixteen comes again; now
and then two change places. Between lines stand `ask` of hosts, and for each liar statements in its own name about
slots, contents and messages.

Which packets were sent by then is told by PROGRAM's trace of the variant so far. Where a line of the scenario names
packets by number, the variant names those with the same sender, taker and bytes; those that weren't sent are left
out. So status 8 does not come of a variant whose scenario doesn't end with it.
"""

import os
import random
import re
import subprocess
import sys
import tomllib

KINDS = ("offer", "order", "deliver")
SCHEDULE = re.compile(r"^schedule = '''\n(.*?)^'''$", re.M | re.S)
PACKET = re.compile(r"^packet \d+ from (\d+) to (\d+) (\w+)$", re.M)
ROUNDS = (["exchange"], ["flush"])
# The sender of a packet of which nobody knows who sent it.
NOBODY = 33


class Scenario:
    """A document, and the schedules that take the place of its own."""

    def __init__(self, text, program):
        keys = tomllib.loads(text)
        self.hosts, self.liars = keys["hosts"], keys.get("liars", [])
        self.text, self.found, self.program = text, SCHEDULE.search(text), program
        if not self.found:
            sys.exit("the scenario has no schedule between lines of '''")
        self.lines = self.found.group(1).splitlines()
        self.named = self.packets(self.lines) if any(map(names_packets, self.lines)) else []

    def document(self, lines):
        """The text with this schedule."""
        return self.text[: self.found.start(1)] + "".join(line + "\n" for line in lines) + self.text[self.found.end(1) :]

    def packets(self, lines):
        """Sender, taker and bytes of each packet after this schedule; None where it ends with another status than 0."""
        ran = subprocess.run([self.program, "trace"], input=self.document(lines).encode(), capture_output=True, check=False)
        if ran.returncode != 0:
            return None
        return [(int(sender), int(taker), said) for sender, taker, said in PACKET.findall(ran.stdout.decode())]

    def is_honest(self, packet):
        """Whether a packet goes from an honest party to one: an exchange gives no other."""
        sender, taker, _ = packet
        return sender != NOBODY and sender not in self.liars and taker not in self.liars


def names_packets(line):
    """Whether a line names packets by number: `deliver K`, or `bundle G RECEIVERS K..`."""
    return line.split()[:1] in (["deliver"], ["bundle"])


def content(draw, hosts):
    """A content as the schedule writes it: an input, or a message."""
    number = draw.choice((0, 1, 5, 7, 99))
    if draw.random() < 0.5:
        return f"in {number}"
    return f"msg {draw.randrange(hosts)} {draw.randrange(2)} {number}"


def said(draw, liar, hosts):
    """A line in which a liar says something to some other hosts."""
    others = [host for host in range(hosts) if host != liar]
    receivers = sorted(draw.sample(others, draw.randint(1, len(others))))
    told = ",".join(map(str, receivers))
    host, slot = draw.randrange(hosts), draw.randrange(2)
    if draw.random() < 0.25:
        return f"say {liar} {told} attest 0 {draw.randrange(hosts)} {host} {slot} {draw.choice((1, 5, 7, 99))}"
    return f"say {liar} {told} {draw.choice(KINDS)} 0 {host} {slot} {content(draw, hosts)}"


class Variant:
    """A schedule that is being drawn: its lines, and the packets that it has given, or lost for good."""

    def __init__(self, draw, scenario):
        self.draw, self.scenario = draw, scenario
        self.lines, self.given, self.lost = [], set(), set()
        self.loss = draw.choice((0, 1 / 32, 1 / 16, 1 / 8))

    def between(self):
        """Now and then something that the scenario doesn't have."""
        draw, scenario = self.draw, self.scenario
        if scenario.liars and draw.random() < 0.3:
            self.lines.append(said(draw, draw.choice(scenario.liars), scenario.hosts))
        if draw.random() < 0.1:
            self.lines.append(f"ask {draw.randrange(scenario.hosts)}")

    def drawn(self, packets, is_exchange):
        """The packets that come in place of an exchange or a flush, in order."""
        come = []
        for number, packet in enumerate(packets):
            if number in self.lost or (is_exchange and not self.scenario.is_honest(packet)):
                continue
            chance = self.draw.random()
            if number in self.given:
                come += [number] if chance < 1 / 16 else []
            elif chance < self.loss:
                self.lost.add(number)
            elif chance >= 2 * self.loss:
                come.append(number)
        for place in range(1, len(come)):
            if self.draw.random() < 1 / 8:
                come[place - 1], come[place] = come[place], come[place - 1]
        return come

    def renamed(self, line, packets):
        """The line with the variant's numbers for the packets that it names; None where none of them was sent."""
        words = line.split()
        before = 1 if words[0] == "deliver" else 3
        numbers = [int(word) for word in words[before:]]
        wanted = [self.scenario.named[number] for number in numbers if number < len(self.scenario.named)]
        found = [packets.index(packet) for packet in wanted if packet in packets]
        return " ".join(words[:before] + [str(number) for number in found]) if found else None

    def take(self, line):
        """Adds what stands for a line of the scenario; False where the schedule has ended by then."""
        is_round = line.split() in ROUNDS
        if not is_round and not (self.scenario.named and names_packets(line)):
            self.lines.append(line)
            return True
        packets = self.scenario.packets(self.lines)
        if packets is None:
            return False
        if is_round:
            come = self.drawn(packets, line.split() == ["exchange"])
        else:
            renamed = self.renamed(line, packets)
            self.lines += [renamed] if renamed and not renamed.startswith("deliver") else []
            come = [int(renamed.split()[1])] if renamed and renamed.startswith("deliver") else []
        self.given.update(come)
        self.lines += [f"deliver {number}" for number in come]
        return True

    def all_lines(self):
        """The whole schedule."""
        for line in self.scenario.lines:
            self.between()
            if not self.take(line):
                break
        return self.lines


def main():
    if len(sys.argv) not in (5, 6):
        sys.exit(__doc__)
    path, seed, count, folder = sys.argv[1], sys.argv[2], int(sys.argv[3]), sys.argv[4]
    top = os.path.dirname(os.path.dirname(os.path.abspath(__file__)))
    program = os.path.abspath(sys.argv[5] if len(sys.argv) == 6 else os.path.join(top, "nysiad"))
    with open(path, encoding="utf-8") as read:
        scenario = Scenario(read.read(), program)
    os.makedirs(folder, exist_ok=True)
    name = os.path.basename(path).removesuffix(".toml")
    for number in range(count):
        lines = Variant(random.Random(f"{seed} {number}"), scenario).all_lines()
        with open(os.path.join(folder, f"{name}_{seed}_{number}.toml"), "w", encoding="utf-8") as written:
            written.write(scenario.document(lines))


if __name__ == "__main__":
    main()
