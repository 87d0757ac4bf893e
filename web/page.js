// Wires the page: a scenario in, a text and its picture out.
"use strict";

const at = (id) => document.getElementById(id);

// The README's statuses, in a few words.
const STATUSES = {
  0: "done",
  1: "not a run",
  2: "no command",
  3: "a key of the scenario is at fault",
  4: "the machine is at fault",
  5: "the guards aren't good",
  6: "more liars than the guards stand",
  7: "a line is at fault",
  8: "no such packet",
  9: "a tag in an honest name",
  10: "too large",
  14: "no memory",
  15: "two payloads of one digest",
};

// A text area becomes slow where it holds more than this; what is longer is shown in part, and saved whole.
const MOST_SHOWN = 200_000;

// How long a piece of reading may keep the page waiting, in milliseconds.
const SLICE = 20;

// The examples that web/examples.py made and the module that web/build.sh made, where they were made.
const examples = typeof EXAMPLES === "undefined" ? {} : EXAMPLES;
const module = typeof MODULE === "undefined" ? null : MODULE;
const program = module && hasWideMemory() ? new Program(module) : null;

const drawing = new Drawing(at("frame"), tellRow);
let whole = null;
let shownText = "";
// Of what was asked and drawn, the last: earlier ones give way.
let calls = 0;
let turn = 0;

function howItRuns() {
  if (program) return "Write a scenario and run it: the program runs here.";
  const paste = "Paste what <code>nysiad trace</code> or <code>nysiad bare</code> prints under Text, and it is drawn.";
  if (module) return `This browser has no 64-bit memory, so the program can't run here. ${paste}`;
  return `No module of the program was built (<code>web/build.sh</code> builds it). ${paste}`;
}

function tellRow(row) {
  const { picture } = drawing;
  const isAny = row !== null && picture.rows[row];
  const hint = "Point at a row, or go from row to row by the arrow keys or the buttons.";
  at("row").textContent = isAny ? rowWords(picture.rows[row], picture) : hint;
  at("replicas").replaceChildren(...replicaTables(picture, row));
}

function say(status, cost = "") {
  at("status").textContent = status;
  at("cost").textContent = cost;
  at("fault").hidden = true;
}

// Does a piece of work between other things of the page; nothing where newer work has begun.
async function inSlices(work, mine) {
  let began = performance.now();
  for (;;) {
    const { done, value } = work.next();
    if (done) return value;
    if (performance.now() - began < SLICE) continue;
    await new Promise((go) => setTimeout(go));
    if (mine !== turn) return undefined;
    began = performance.now();
  }
}

function showText(text) {
  shownText = text;
  const isLong = text.length > MOST_SHOWN;
  const front = text.slice(0, text.lastIndexOf("\n", MOST_SHOWN) + 1);
  at("answer").value = isLong ? `${front}.. save has all ${text.length} bytes` : text;
  at("answer").readOnly = isLong;
}

function showNothing() {
  whole = null;
  document.body.classList.add("plain");
}

// The picture without what came again, unless that is wanted.
async function drawWhole() {
  if (!whole) return;
  const shown = at("repeats").checked ? whole : await inSlices(withoutRepeats(whole), turn);
  if (!shown) return;
  drawing.show(shown);
  tellRow(null);
}

function readAndLayOut(text, scenario) {
  return (function* () {
    const read = yield* readText(text);
    return read.refused === undefined ? yield* layout(read, readScenario(scenario)) : null;
  })();
}

// Draws a text of the program; what is none has no picture. The answer is what was drawn.
async function draw(text, scenario) {
  const mine = ++turn;
  let picture = null;
  try {
    picture = await inSlices(readAndLayOut(text, scenario), mine);
  } catch (malformed) {
    console.warn(malformed);
  }
  if (mine !== turn) return null;
  showNothing();
  if (!picture) return null;
  whole = picture;
  document.body.classList.remove("plain");
  await drawWhole();
  return mine === turn ? picture : null;
}

function countsOf(picture) {
  const { isTrace, packets, givings, run } = picture.text;
  const steps = `steps of the run: ${run.length}`;
  return isTrace ? `${packets.length} packets, given ${givings.length} times; ${steps}` : steps;
}

// A text that was pasted, opened or written into the text area.
async function showGiven(text) {
  showText(text);
  say(text === "" ? "" : "reading");
  const picture = await draw(text, at("scenario").value);
  if (picture) say("drawn from this text", countsOf(picture));
  else if (text !== "" && at("status").textContent === "reading") say("no text of a run");
}

// Where a refusal names a line of a text of the scenario.
function placeOfFault(status, text, scenario, command) {
  const line = / line (\d+)/.exec(text);
  const key = { 4: "machine", 7: command === "verify" ? "run" : "schedule" }[status];
  return line && key ? placeOfLine(scenario, key, +line[1]) : null;
}

function showFault(place) {
  at("fault").hidden = !place;
  at("fault").onclick = () => {
    at("scenario").focus();
    at("scenario").setSelectionRange(...place);
  };
}

function millions(bytes) {
  return `${Math.round(bytes / 1e6)} MB`;
}

// The text that tells most of what happened: that of `replay` has no packets, that of `trace` of the same document has.
async function textToDraw(command, scenario, found) {
  if (command !== "replay" || found.status !== 0) return found.text;
  const traced = await program.answer("trace", scenario);
  return traced.status === 0 ? traced.text : found.text;
}

async function answerAndShow(command, scenario) {
  const found = await program.answer(command, scenario);
  const line = found.status === 0 ? "" : `: ${found.text.trimEnd()}`;
  const cost = `${Math.round(found.milliseconds)} ms, ${millions(found.memory)}`;
  const verdict = `status ${found.status}, ${STATUSES[found.status]}${line}`;
  showText(found.text);
  say(verdict, cost);
  showFault(placeOfFault(found.status, found.text, scenario, command));
  const picture = await draw(await textToDraw(command, scenario, found), scenario);
  if (picture) at("cost").textContent = `${cost}; ${countsOf(picture)}`;
}

function showBusy(isBusy) {
  document.body.classList.toggle("busy", isBusy);
  at("stop").hidden = !isBusy;
}

// Runs the scenario. An answer that is still awaited isn't wanted any more.
async function run() {
  if (!program) return;
  if (document.body.classList.contains("busy")) program.stop();
  const mine = ++calls;
  turn++;
  showBusy(true);
  say("running");
  try {
    await answerAndShow(at("command").value, at("scenario").value);
  } catch (cutOff) {
    if (mine === calls) say(`no answer: ${cutOff.message}`);
  }
  if (mine === calls) showBusy(false);
}

function openScenario(scenario, command) {
  at("scenario").value = scenario;
  if (command) at("command").value = command;
  showNothing();
  showText("");
  say("");
  return run();
}

// An example, run here, or with the text that was made of it where nothing can be run.
async function openExample(name) {
  const { scenario, command, text, trace } = examples[name];
  await openScenario(scenario, command);
  if (program) return;
  showText(text);
  const picture = await draw(trace ?? text, scenario);
  say("the text that was stored of this example", picture ? countsOf(picture) : "");
}

// The link that carries a scenario, in the part of an address that no server sees.
function openLink() {
  const carried = new URLSearchParams(location.hash.slice(1));
  const scenario = carried.get("scenario");
  if (scenario === null || scenario === at("scenario").value) return;
  at("examples").value = "";
  openScenario(scenario, carried.get("command"));
}

function makeLink() {
  location.hash = new URLSearchParams({ command: at("command").value, scenario: at("scenario").value }).toString();
  say("the address of this page carries the scenario now");
}

function save() {
  const place = URL.createObjectURL(new Blob([shownText], { type: "text/plain" }));
  const made = document.createElement("a");
  [made.href, made.download] = [place, "nysiad.txt"];
  made.click();
  URL.revokeObjectURL(place);
}

const KEYS = {
  ArrowDown: () => drawing.select((drawing.selected ?? -1) + 1),
  ArrowUp: () => drawing.select((drawing.selected ?? 0) - 1),
  PageDown: () => drawing.select((drawing.selected ?? -1) + 20),
  PageUp: () => drawing.select((drawing.selected ?? 0) - 20),
  ArrowRight: () => drawing.selectEvent(1),
  ArrowLeft: () => drawing.selectEvent(-1),
  Home: () => drawing.select(0),
  End: () => drawing.select(Infinity),
  Escape: () => drawing.select(null),
  "+": () => drawing.zoom(1.25),
  "-": () => drawing.zoom(0.8),
};

const BUTTONS = { first: "Home", before: "ArrowUp", after: "ArrowDown", last: "End", in: "+", out: "-" };

function wirePicture() {
  at("frame").addEventListener("keydown", (event) => {
    if (!KEYS[event.key] || event.ctrlKey || event.metaKey || !drawing.picture) return;
    event.preventDefault();
    KEYS[event.key]();
  });
  for (const id in BUTTONS) at(id).addEventListener("click", () => drawing.picture && KEYS[BUTTONS[id]]());
  at("repeats").addEventListener("change", drawWhole);
}

function wireTexts() {
  at("answer").addEventListener("input", () => showGiven(at("answer").value));
  // A long text isn't put into the text area, which would be slow.
  at("answer").addEventListener("paste", (event) => {
    const pasted = event.clipboardData.getData("text");
    if (pasted.length <= MOST_SHOWN && !at("answer").readOnly) return;
    event.preventDefault();
    showGiven(pasted);
  });
  at("file").addEventListener("change", async ({ target }) => {
    if (target.files[0]) showGiven(await target.files[0].text());
  });
  at("save").addEventListener("click", save);
}

function wireScenario() {
  for (const name of Object.keys(examples)) at("examples").append(new Option(name.replaceAll("_", " "), name));
  at("examples").addEventListener("change", ({ target }) => target.value && openExample(target.value));
  // What is written is no example any more.
  at("scenario").addEventListener("input", () => (at("examples").value = ""));
  at("command").addEventListener("change", run);
  at("run").addEventListener("click", run);
  at("stop").addEventListener("click", () => program.stop());
  at("scenario").addEventListener("keydown", (event) => event.key === "Enter" && event.ctrlKey && run());
  at("link").addEventListener("click", makeLink);
  addEventListener("hashchange", openLink);
}

at("how").innerHTML = howItRuns();
at("commands").hidden = !program;
at("trust").hidden = !program;
showNothing();
wireScenario();
wireTexts();
wirePicture();
openLink();
