// Reads the texts of `bare`, `replay` and `trace` (docs/FORMATS.md).
"use strict";

const OLYMPUS = 32;
const STRANGER = 33;
const TITLES = new Set(["packets", "injected", "steps", "run", "hosts", "guards", "notes"]);

// Work on long texts is done by generators that yield now and then, so that a page can do other things in between.
const PART = 4000;

// All of such work at once.
function finish(work) {
  for (;;) {
    const { done, value } = work.next();
    if (done) return value;
  }
}

// `packet K from F to T HEX`
function packetOf(line) {
  const [, k, , from, , to, hex] = line.split(" ");
  return { k: +k, from: +from, to: +to, hex };
}

// `step E packet K to T taken`, `step E bytes to T dropped CAUSE`
function givingOf(line) {
  const words = line.split(" ");
  const isPacket = words[2] === "packet";
  const at = isPacket ? 5 : 4;
  return {
    event: +words[1],
    packet: isPacket ? +words[3] : null,
    to: +words[at],
    cause: words[at + 1] === "taken" ? null : words.slice(at + 2).join(" "),
  };
}

// `0 input 5`, `1 receive 0 0`, `2 stop`
function stepOf(line) {
  const [host, kind, ...rest] = line.split(" ");
  return { host: +host, kind, rest: rest.map(Number), line };
}

// `host 0 running state 5 out 5`
function hostOf(line) {
  const [, host, how, state, out] = /^host (\d+) (\w+) state (\S+) out (.*)$/.exec(line);
  return { host: +host, isRunning: how === "running", state, out };
}

// `guard 1 of 0 live at 1 state 5 out -`
function guardOf(line) {
  const words = /^guard (\d+) of (\d+) (\w+) at (\d+) state (\S+) out (.*)$/;
  const [, guard, host, how, length, state, out] = words.exec(line);
  return { guard: +guard, host: +host, isLive: how === "live", length: +length, state, out };
}

// `event 5 wedged 0`
function noteOf(line) {
  const [, event, text] = /^event (\d+) (.*)$/.exec(line);
  return { event: +event, text };
}

const READERS = {
  packets: packetOf,
  injected: (line) => line,
  steps: givingOf,
  run: stepOf,
  hosts: hostOf,
  guards: guardOf,
  notes: noteOf,
};

// A text of the program, by its sections. Where it isn't the whole text of a run, `refused` has its first line.
function* readText(text) {
  const sections = {};
  let [title, count] = ["", 0];
  for (let begin = 0; begin < text.length; ) {
    const found = text.indexOf("\n", begin);
    const end = found < 0 ? text.length : found;
    const line = text.slice(begin, end);
    begin = end + 1;
    if (TITLES.has(line)) sections[(title = line)] = [];
    else if (line === "end") title = "";
    else if (title) sections[title].push(READERS[title](line));
    if (++count % PART === 0) yield begin / text.length;
  }
  if (!sections.hosts) return { refused: text.split("\n", 1)[0] };
  const { packets = [], injected = [], steps = [], run = [], hosts, guards = [], notes = [] } = sections;
  return { isTrace: Boolean(sections.steps), packets, injected, givings: steps, run, hosts, guards, notes };
}
