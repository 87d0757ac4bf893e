// Lays out a run in space and time: a lane for each party, a row for each thing that happens, time downwards.
"use strict";

// Who acts in an event that is no giving: hosts, a liar, a stranger or the Olympus.
function actorOf(line) {
  const [kind, who] = line.split(" ");
  if (["input", "ask", "say", "bundle", "stop"].includes(kind)) return +who;
  if (kind === "steal") return STRANGER;
  if (["wedge", "decide", "retire", "open"].includes(kind)) return OLYMPUS;
  return null;
}

// What a packet says. It is read when it is first asked for, since a long trace has more packets than are looked at.
function recordOf(packet) {
  if (packet.record === undefined) packet.record = readRecord(packet.hex);
  return packet.record;
}

// The rows of a trace, in order: `event` begins one, `giving` is a packet or bytes given, `note` is told at its end.
function* rowsOfTrace(text, scenario) {
  const rows = [];
  const { givings, notes } = text;
  const last = Math.max(scenario.events.length - 1, givings.at(-1)?.event ?? -1, notes.at(-1)?.event ?? -1);
  let [giving, note] = [0, 0];
  for (let event = 0; event <= last; event++) {
    const line = scenario.events[event] ?? "";
    rows.push({ kind: "event", event, line, actor: actorOf(line), grown: [] });
    for (; giving < givings.length && givings[giving].event === event; giving++) {
      const it = givings[giving];
      rows.push({ kind: "giving", event, actor: it.to, packet: it.packet, cause: it.cause, grown: [] });
      if (giving % PART === 0) yield;
    }
    for (; note < notes.length && notes[note].event === event; note++) {
      rows.push({ kind: "note", event, actor: OLYMPUS, line: notes[note].text, grown: [] });
    }
    if (event % PART === 0) yield;
  }
  return rows;
}

// Follows the guards' logs by what was taken (docs/RULES.md, "Rules"). A guard logs where a quorum's votes to deliver
// are of one content. Its own is made with theirs at the latest, so those of others are counted, one less. Where a host
// guards itself alone nothing is taken, and so nothing is known of when its log grows.
class Logs {
  constructor(epochs) {
    this.epochs = epochs;
    this.nodes = new Map();
  }

  node(guard) {
    if (!this.nodes.has(guard)) this.nodes.set(guard, { epoch: 0, lengths: [], votes: [] });
    return this.nodes.get(guard);
  }

  length(guard, host) {
    return this.node(guard).lengths[host] ?? 0;
  }

  // A guard took a record. The answer is whether its log of the record's host grew.
  take(guard, record) {
    const node = this.node(guard);
    if (record.kind === "open") {
      node.epoch = record.epoch;
      node.votes = [];
      return false;
    }
    const isNext = record.slot === (node.lengths[record.host] ?? 0);
    if (record.kind === "deliver" && isNext) return this.vote(guard, node, record);
    return record.kind === "inherit" && isNext && this.grow(node, record.host);
  }

  vote(guard, node, record) {
    const { guards, quorums } = this.epochs[node.epoch] ?? { guards: [], quorums: [] };
    const votes = (node.votes[record.host] ??= new Map());
    for (const { maker, receivers } of record.makers) {
      const counts = maker !== guard && receivers.includes(guard) && guards[record.host]?.has(maker);
      if (counts && !votes.has(maker)) votes.set(maker, record.content);
    }
    const alike = [...votes.values()].filter((it) => it === record.content).length;
    return alike >= quorums[record.host] - 1 && this.grow(node, record.host);
  }

  grow(node, host) {
    node.lengths[host] = (node.lengths[host] ?? 0) + 1;
    delete node.votes[host];
    return true;
  }
}

// Marks the rows in which a log grew, and gives all of that in order. Logs of which the report tells another length at
// the end are left out: their packets don't tell all.
function* growthsOf(text, scenario, rows) {
  const logs = new Logs(scenario.epochs);
  const found = [];
  for (let at = 0; at < rows.length; at++) {
    if (at % PART === 0) yield;
    const { kind, packet, cause, actor } = rows[at];
    if (kind !== "giving" || packet === null || cause) continue;
    const record = recordOf(text.packets[packet]);
    if (record && logs.take(actor, record)) {
      found.push({ row: at, guard: actor, host: record.host, length: logs.length(actor, record.host) });
    }
  }
  const told = new Map(text.guards.map((it) => [`${it.guard} of ${it.host}`, it.length]));
  const growths = found.filter((it) => told.get(`${it.guard} of ${it.host}`) === logs.length(it.guard, it.host));
  for (const it of growths) rows[it.row].grown.push(it);
  return growths;
}

// The rows at which the packets of liars and strangers were made, in order: each line `say`, `bundle` or `steal` makes
// one for each receiver.
function placesOfSaying(rows) {
  const places = new Map();
  rows.forEach((row, at) => {
    if (row.kind !== "event" || !/^(say|bundle|steal) /.test(row.line)) return;
    const receivers = row.line.split(" ")[2].split(",").length;
    if (!places.has(row.actor)) places.set(row.actor, []);
    for (let left = receivers; left > 0; left--) places.get(row.actor).push(at);
  });
  return places;
}

// What a party took before it made a statement of a kind, where it was told nothing by an event.
const CAUSES = {
  offer: ["attest", "deliver", "inherit", "open", "ask"],
  order: ["offer", "order", "attest", "deliver", "ask"],
  deliver: ["order", "deliver", "ask"],
  attest: ["deliver", "inherit", "ask"],
  report: ["wedge"],
  frozen: ["wedge"],
};

// How many rows of a party are looked at for such a cause.
const LOOKED_BACK = 64;

// The rows in which each party took something or was told something.
function actsOf(rows) {
  const acts = new Map();
  rows.forEach(({ kind, actor, cause }, at) => {
    if (actor === null || kind === "note" || cause) return;
    if (!acts.has(actor)) acts.set(actor, []);
    acts.get(actor).push(at);
  });
  return acts;
}

// The row at which each packet is first given, as that of the event which does so; none where it never is.
function firstGivings(text, rows) {
  const first = new Array(text.packets.length).fill(rows.length);
  let begin = 0;
  rows.forEach(({ kind, packet }, at) => {
    if (kind === "event") begin = at;
    else if (kind === "giving" && packet !== null) first[packet] = Math.min(first[packet], begin);
  });
  return first;
}

// Where each packet was made. Of an honest party the text doesn't say it: it is drawn at the last row before the packet
// was first given in which the party took what can have led to it, packets keeping their order.
function* placesOfSending(text, rows) {
  const [acts, said, first] = [actsOf(rows), placesOfSaying(rows), firstGivings(text, rows)];
  const leadsTo = (kind) => (at) => {
    const row = rows[at];
    if (row.kind !== "giving") return true;
    return row.packet !== null && Boolean(CAUSES[kind]?.includes(recordOf(text.packets[row.packet])?.kind));
  };
  const places = new Array(text.packets.length).fill(0);
  let bound = rows.length - 1;
  for (let k = text.packets.length - 1; k >= 0; k--) {
    if (k % PART === 0) yield;
    const { from } = text.packets[k];
    bound = Math.max(0, Math.min(bound, first[k] - 1));
    const ofLine = said.get(from)?.pop();
    const mine = acts.get(from) ?? [];
    while (mine.length && mine.at(-1) > bound) mine.pop();
    const recent = mine.slice(-LOOKED_BACK).reverse();
    const found = ofLine ?? recent.find(leadsTo(recordOf(text.packets[k])?.kind)) ?? recent[0];
    places[k] = bound = Math.min(found ?? bound, bound);
  }
  return places;
}

// The arrows of a trace: one for each packet or piece of bytes that was given. A packet that was given before begins
// where the event begins that gives it again.
function* arrowsOfTrace(text, rows) {
  const sent = yield* placesOfSending(text, rows);
  const given = new Set();
  const arrows = [];
  let begin = 0;
  for (let at = 0; at < rows.length; at++) {
    if (at % PART === 0) yield;
    const { kind, packet, actor, cause } = rows[at];
    if (kind === "event") begin = at;
    if (kind !== "giving") continue;
    const isAgain = given.has(packet);
    if (packet !== null) given.add(packet);
    const from = packet === null ? STRANGER : text.packets[packet].from;
    const start = packet === null ? at : isAgain ? begin : sent[packet];
    rows[at].arrow = { from, to: actor, begin: start, end: at, packet, cause, isAgain };
    arrows.push(rows[at].arrow);
  }
  return arrows;
}

// The rows and arrows of a run by itself: each step is a row, each receive the end of an arrow from its sending.
// Which step sent message K of a link isn't in the text: the arrow begins at the sender's last step before.
function layoutOfRun(text) {
  const latest = new Map();
  const arrows = [];
  const rows = text.run.map((step, at) => {
    const row = { kind: "step", event: at, actor: step.host, line: step.line, grown: [] };
    if (step.kind === "receive") {
      const [from, message] = step.rest;
      const begin = latest.get(from) ?? at;
      row.arrow = { from, to: step.host, begin, end: at, packet: null, message, cause: null, isAgain: false };
      arrows.push(row.arrow);
    }
    latest.set(step.host, at);
    return row;
  });
  return { rows, arrows, growths: [] };
}

function* layoutOfTrace(text, scenario) {
  const rows = yield* rowsOfTrace(text, scenario);
  const growths = yield* growthsOf(text, scenario, rows);
  const arrows = yield* arrowsOfTrace(text, rows);
  return { rows, arrows, growths };
}

// Where each epoch begins: at row 0, and where a note says `opened`.
function epochsOf(rows) {
  const begins = [0];
  rows.forEach((row, at) => row.kind === "note" && row.line.startsWith("opened") && begins.push(at));
  return begins;
}

// All that is drawn of a text: { lanes, rows, arrows, growths, epochs, liars, text }. Arrows are in the order of their
// ends.
function* layout(text, scenario) {
  const { rows, arrows, growths } = text.isTrace ? yield* layoutOfTrace(text, scenario) : layoutOfRun(text);
  const lanes = text.hosts.map((it) => it.host);
  if (text.isTrace) lanes.push(OLYMPUS);
  if (arrows.some((it) => it.from === STRANGER)) lanes.push(STRANGER);
  return { lanes, rows, arrows, growths, epochs: epochsOf(rows), liars: scenario.liars, text };
}

// The same without the packets that came again and changed no log; each event tells how many these are.
function* withoutRepeats(picture) {
  const kept = [];
  const places = [];
  let event = null;
  for (const row of picture.rows) {
    if (places.length % PART === 0) yield;
    const isLeftOut = row.arrow?.isAgain && row.grown.length === 0;
    if (isLeftOut) event.leftOut++;
    else kept.push({ ...row, leftOut: 0 });
    if (row.kind === "event") event = kept.at(-1);
    places.push(kept.length - 1);
  }
  const arrows = [];
  for (const row of kept) {
    if (!row.arrow) continue;
    row.arrow = { ...row.arrow, begin: places[row.arrow.begin], end: places[row.arrow.end] };
    arrows.push(row.arrow);
  }
  const growths = picture.growths.map((it) => ({ ...it, row: places[it.row] }));
  return { ...picture, rows: kept, arrows, growths, epochs: picture.epochs.map((it) => places[it]) };
}
