// Tests of the page's readers and of its layout, run in a browser by web/test.py: the result is the text of the page.
"use strict";

const failures = [];
let passed = 0;

function expect(name, found, wanted) {
  if (JSON.stringify(found) === JSON.stringify(wanted)) passed++;
  else failures.push(`${name}: ${JSON.stringify(found)} and not ${JSON.stringify(wanted)}`);
}

// How often a text matches.
const count = (text, pattern) => (text.match(pattern) || []).length;

// The statement of docs/FORMATS.md's example, with one maker and no tags that matter.
const digest = "00".repeat(32);
expect("an offer", readRecord(`4e5902010000010002` + `01000000${digest}` + `00010000000000000005` + `0100` + `0100` + digest).text, "offer 0 1 2 msg 0 0 5");
expect("no record", readRecord("4e5901"), null);

// Scenarios are read as TOML says, as far as it goes.
const written = `a = [1, -2, 1_000, # three\n [3]]\nb = "x\\"\\u0041"\nc = '''\nit's ''quoted'''\nd = { e = true }\n[[epoch]]\nt = 1\n[[epoch]]\nt = 0 # last\n`;
const read = { a: [1, -2, 1000, [3]], b: 'x"A', c: "it's ''quoted", d: { e: true }, epoch: [{ t: 1 }, { t: 0 }] };
expect("a document", new Toml(written).document(), read);
expect("no document", readScenario("hosts = ").events, []);
expect("a fault's line", placeOfLine("hosts = 3\nschedule = '''\n# first\nfly 0\n'''", "schedule", 2), [33, 38]);

// Plans by docs/RULES.md: the first four of a host's component and then of the others, of whose votes three are a quorum.
const planned = epochOf({ t: 1 }, 5, [[3, 4]]);
expect("planned guards", planned.guards.map((it) => [...it]), [[0, 1, 2, 3], [1, 0, 2, 3], [2, 0, 1, 3], [3, 4, 0, 1], [3, 4, 0, 1]]);
expect("quorums", planned.quorums, [3, 3, 3, 3, 3]);

// What is laid out agrees with the lines of the text: arrows, drops, packets, and the lengths of all replicas.
function testLayout(name, scenario, answer) {
  const text = finish(readText(answer));
  if (text.refused !== undefined) {
    expect(`${name} is a refusal of one line, or has no run`, count(answer, /\nhosts\n/g), 0);
    return;
  }
  const picture = finish(layout(text, readScenario(scenario)));
  const given = text.isTrace ? count(answer, /^step /gm) : count(answer, /^\d+ receive /gm);
  const lengths = text.guards.map((it) => it.length).reduce((a, b) => a + b, 0);
  expect(`${name}: arrows`, picture.arrows.length, given);
  expect(`${name}: drops`, picture.arrows.filter((it) => it.cause).length, count(answer, / dropped /g));
  expect(`${name}: arrows go down`, picture.arrows.every((it) => it.begin <= it.end), true);
  expect(`${name}: each packet is read`, text.packets.filter((it) => !recordOf(it)).map((it) => it.k), []);
  expect(`${name}: logs grow as far as the report says`, picture.growths.length, text.isTrace ? lengths : 0);
  const shown = finish(withoutRepeats(picture));
  expect(`${name}: none that came first is left out`, shown.arrows.filter((it) => !it.isAgain).length, picture.arrows.filter((it) => !it.isAgain).length);
  expect(`${name}: arrows end in their rows`, shown.arrows.every((it) => shown.rows[it.end].arrow === it && it.begin <= it.end), true);
}

for (const name of Object.keys(EXAMPLES)) {
  const { scenario, text, trace } = EXAMPLES[name];
  testLayout(name, scenario, trace ?? text);
}

document.getElementById("result").textContent = [...failures, `scripts: ${passed} passed, ${failures.length} failed`].join("\n");
