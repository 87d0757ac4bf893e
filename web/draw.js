// Draws a layout as SVG: the part that is in view and no more, so that a long trace stays light.
"use strict";

const ROW = 18;
const HEAD = 34;

// How wide the labels at the left are and how many letters of one stand there, how wide a lane is, and how lanes are
// named. In a narrow frame, as on a telephone, labels are cut short: the row that is marked is told in full above.
const WIDE = { labels: 300, letters: 38, lane: 96, name: laneName };
const NARROW = { labels: 112, letters: 13, lane: 62, name: shortName };
const NARROW_FRAME = 600;
const SVG = "http://www.w3.org/2000/svg";

// No element is higher than browsers draw; past that a place of the scroll bar stands for many rows.
const MOST_PIXELS = 8_000_000;

// How many arrows that only begin in view are drawn, each as a stub: a `flush` may bring thousands.
const MOST_STUBS = 400;

function shape(name, attributes, ...children) {
  const made = document.createElementNS(SVG, name);
  for (const key in attributes) made.setAttribute(key, attributes[key]);
  made.append(...children);
  return made;
}

function group(kind, ...children) {
  return shape("g", { class: kind }, ...children);
}

function partyName(party) {
  return party === OLYMPUS ? "the Olympus" : party === STRANGER ? "a stranger" : `host ${party}`;
}

function shortName(party) {
  return party === OLYMPUS ? "O" : party === STRANGER ? "?" : `${party}`;
}

function laneName(party) {
  return party === OLYMPUS ? "Olympus" : party === STRANGER ? "stranger" : `host ${party}`;
}

// What an arrow carries, in words: the statement, and who made it.
function carriedWords(arrow, text) {
  if (arrow.packet === null) return arrow.message === undefined ? "bytes" : `message ${arrow.message}`;
  const record = recordOf(text.packets[arrow.packet]);
  if (!record) return `packet ${arrow.packet}: no record`;
  return `packet ${arrow.packet}: ${record.text}, made by ${record.makers.map((it) => it.maker).join(", ")}`;
}

function fateWords(arrow) {
  return arrow.cause ? `dropped: ${arrow.cause}` : "taken";
}

function growthWords(it) {
  return `log ${it.host} = ${it.length}`;
}

// What a row says, for those who don't see the picture.
function rowWords(row, picture) {
  const grows = (it) => `; the log of host ${it.host} at guard ${it.guard} has ${it.length} now`;
  const grown = row.grown.map(grows).join("");
  if (row.kind === "step") return `step ${row.event}: ${row.line}`;
  if (row.kind === "note") return `event ${row.event}, note: ${row.line}`;
  if (row.kind === "event") {
    const again = row.leftOut ? ` (${row.leftOut} packets that came before come again)` : "";
    return `event ${row.event}: ${row.line || "(not in the scenario)"}${again}`;
  }
  const { arrow } = row;
  const way = `${partyName(arrow.from)} to ${partyName(arrow.to)}`;
  return `${way}: ${carriedWords(arrow, picture.text)}: ${fateWords(arrow)}${grown}`;
}

// What stands to the left of a row. That of a giving is indented, where there is room.
function labelOf(row, picture) {
  if (row.kind === "event") return `${row.event}  ${row.line}${row.leftOut ? `  (${row.leftOut} again)` : ""}`;
  if (row.kind === "note") return `   note: ${row.line}`;
  if (row.kind === "step") return `${row.event}  ${row.line}`;
  const { from, to, packet } = row.arrow;
  const said = packet === null ? "bytes" : (recordOf(picture.text.packets[packet])?.text ?? "no record");
  return `   ${shortName(from)}→${shortName(to)} ${said}`;
}

// A drawing in an element that scrolls. `show` sets what is drawn, `select` marks a row, and `told` is called with
// the row that is marked.
class Drawing {
  constructor(frame, told) {
    this.frame = frame;
    this.told = told;
    this.scale = 1;
    this.sizes = WIDE;
    this.svg = shape("svg", { role: "img", "aria-label": "who sent what to whom, time downwards" });
    this.room = document.createElement("div");
    this.room.append(this.svg);
    frame.replaceChildren(this.room);
    frame.addEventListener("scroll", () => this.drawSoon());
    frame.addEventListener("click", (event) => this.select(this.rowAt(event.clientY)));
    new ResizeObserver(() => this.drawSoon()).observe(frame);
  }

  show(picture) {
    this.picture = picture;
    this.selected = null;
    this.byBegin = picture.arrows.slice().sort((a, b) => a.begin - b.begin);
    this.isFitted = this.isZoomed;
    this.frame.scrollTo(0, 0);
    this.drawSoon();
  }

  // As large as it can be with all lanes in view, but never too small to read.
  fit() {
    this.isFitted = true;
    this.scale = Math.min(1, Math.max(0.7, this.frame.clientWidth / this.wholeWidth()));
  }

  wholeWidth() {
    return this.sizes.labels + this.picture.lanes.length * this.sizes.lane;
  }

  zoom(factor) {
    const first = this.first();
    this.isZoomed = true;
    this.scale = Math.min(3, Math.max(0.3, this.scale * factor));
    this.resize();
    this.scrollToRow(first);
    this.drawSoon();
  }

  // Marks a row, or none, and brings it into view.
  select(row) {
    if (!this.picture) return;
    const last = this.picture.rows.length - 1;
    this.selected = row === null || last < 0 ? null : Math.min(last, Math.max(0, row));
    if (this.selected !== null) this.reveal(this.selected);
    this.drawSoon();
    this.told(this.selected);
  }

  // Marks the next row, or the one before, that begins an event.
  selectEvent(step) {
    const { rows } = this.picture;
    let at = (this.selected ?? -1) + step;
    while (at > 0 && at < rows.length && rows[at].kind === "giving") at += step;
    this.select(at);
  }

  reveal(row) {
    const [first, count] = [this.first(), this.inView()];
    if (row < first + 1) this.scrollToRow(row - 1);
    if (row > first + count - 2) this.scrollToRow(row - count + 2);
  }

  drawSoon() {
    if (this.waits) return;
    this.waits = true;
    requestAnimationFrame(() => {
      this.waits = false;
      this.draw();
    });
  }

  // How many rows fit below the names of the lanes.
  inView() {
    return Math.max(1, this.frame.clientHeight / this.scale - HEAD) / ROW;
  }

  // The room that is scrolled, and how far it can be.
  resize() {
    const { rows } = this.picture;
    const height = (HEAD + (rows.length + 1) * ROW) * this.scale;
    this.room.style.height = `${Math.min(MOST_PIXELS, height)}px`;
    this.room.style.width = `${this.wholeWidth() * this.scale}px`;
    this.range = Math.max(1, Math.min(MOST_PIXELS, height) - this.frame.clientHeight);
    this.rowsOut = Math.max(0, rows.length + 1 - this.inView());
  }

  // The row at the top of the view, also between two rows.
  first() {
    return (Math.min(this.frame.scrollTop, this.range ?? 1) / (this.range ?? 1)) * (this.rowsOut ?? 0);
  }

  scrollToRow(row) {
    if (this.rowsOut > 0) this.frame.scrollTop = (Math.max(0, row) / this.rowsOut) * this.range;
  }

  rowAt(clientY) {
    const y = (clientY - this.frame.getBoundingClientRect().top) / this.scale;
    return y < HEAD ? null : Math.floor(this.first() + (y - HEAD) / ROW);
  }

  x(party) {
    const { labels, lane } = this.sizes;
    return labels + (this.picture.lanes.indexOf(party) + 0.5) * lane - this.left;
  }

  y(row) {
    return HEAD + (row + 0.5 - this.top) * ROW;
  }

  draw() {
    if (!this.picture) return;
    this.sizes = this.frame.clientWidth < NARROW_FRAME ? NARROW : WIDE;
    if (!this.isFitted) this.fit();
    this.resize();
    this.top = this.first();
    this.left = this.frame.scrollLeft / this.scale;
    const { clientWidth, clientHeight } = this.frame;
    [this.wide, this.high] = [clientWidth / this.scale, clientHeight / this.scale];
    const from = Math.max(0, Math.floor(this.top) - 1);
    const to = Math.min(this.picture.rows.length, Math.ceil(this.top + this.inView()) + 1);
    this.svg.setAttribute("viewBox", `0 0 ${this.wide} ${this.high}`);
    this.svg.setAttribute("width", clientWidth);
    this.svg.setAttribute("height", clientHeight);
    this.svg.replaceChildren(
      this.bands(from, to),
      this.lines(),
      this.arrows(from, to),
      this.marks(from, to),
      this.labels(from, to),
      this.heads(),
    );
  }

  // A band for each epoch in view, and one for the row that is marked.
  bands(from, to) {
    const made = group("bands");
    const box = (begin, end, kind) => {
      const [y, height] = [this.y(begin) - ROW / 2, (end - begin) * ROW];
      return shape("rect", { x: 0, y, width: this.wide, height, class: kind });
    };
    for (const { epoch, begin, end } of this.epochsInView(from, to)) {
      made.append(box(begin, end, epoch % 2 ? "odd" : "even"));
    }
    if (this.selected !== null) made.append(box(this.selected, this.selected + 1, "selected"));
    return made;
  }

  epochsInView(from, to) {
    const edges = [...this.picture.epochs, this.picture.rows.length];
    const cut = (begin, epoch) => ({ epoch, begin: Math.max(from, begin), end: Math.min(to, edges[epoch + 1]) });
    return this.picture.epochs.map(cut).filter((it) => it.begin < it.end);
  }

  isLiar(party) {
    return party === STRANGER || this.picture.liars.has(party);
  }

  lines() {
    const line = (party) => {
      const x = this.x(party);
      const kind = this.isLiar(party) ? "lane liar" : "lane";
      return shape("line", { x1: x, x2: x, y1: HEAD, y2: this.high, class: kind });
    };
    return group("lanes", ...this.picture.lanes.map(line));
  }

  // The arrows that end in view, and of those that begin in view and end below it as many stubs as stay readable.
  arrows(from, to) {
    const { arrows } = this.picture;
    const first = lowerBound(arrows, from, (it) => it.end);
    const past = lowerBound(arrows, to, (it) => it.end);
    const made = arrows.slice(first, past).map((it) => this.arrow(it));
    const stubs = [];
    for (let at = lowerBound(this.byBegin, from, (it) => it.begin); at < this.byBegin.length; at++) {
      const it = this.byBegin[at];
      if (it.begin >= to || stubs.length === MOST_STUBS) break;
      if (it.end >= to && !it.isAgain) stubs.push(this.stub(it));
    }
    return group("arrows", ...stubs, ...made);
  }

  kindOf(arrow) {
    const words = ["arrow"];
    if (arrow.cause) words.push("dropped");
    if (arrow.isAgain) words.push("again");
    if (this.isLiar(arrow.from)) words.push("liar");
    if (arrow.end === this.selected) words.push("marked");
    return words.join(" ");
  }

  title(arrow) {
    return shape("title", {}, `${carriedWords(arrow, this.picture.text)}\n${fateWords(arrow)}`);
  }

  // An arrow that begins far above is drawn from the edge of the view: its slope stays that of the whole.
  arrow(it) {
    const [x1, x2, y1, y2] = [this.x(it.from), this.x(it.to), this.y(it.begin), this.y(it.end)];
    const turn = Math.atan2(y2 - y1, x2 - x1);
    const wing = (by) => `${x2 - 9 * Math.cos(turn + by)},${y2 - 9 * Math.sin(turn + by)}`;
    const share = y1 < -ROW ? (y2 + ROW) / (y2 - y1) : 1;
    const ends = { x1: x2 - (x2 - x1) * share, y1: y2 - (y2 - y1) * share, x2, y2 };
    const lines = [shape("line", { ...ends, class: "hit" }), shape("line", ends)];
    const made = group(this.kindOf(it), this.title(it), ...lines);
    if (!it.cause) made.append(shape("polyline", { points: `${wing(0.4)} ${x2},${y2} ${wing(-0.4)}` }));
    else made.append(shape("path", { d: `M${x2 - 4},${y2 - 4}l8,8m0,-8l-8,8` }));
    return made;
  }

  // The beginning of an arrow that ends below the view.
  stub(it) {
    const [x1, y1, x2, y2] = [this.x(it.from), this.y(it.begin), this.x(it.to), this.y(it.end)];
    const share = Math.min(1, (this.high + ROW - y1) / (y2 - y1));
    const ends = { x1, y1, x2: x1 + (x2 - x1) * share, y2: y1 + (y2 - y1) * share };
    const lines = [shape("line", { ...ends, class: "hit" }), shape("line", ends)];
    return group(`${this.kindOf(it)} stub`, this.title(it), ...lines);
  }

  // Who acts in a row, where logs grow, and why packets were dropped.
  marks(from, to) {
    const made = group("marks");
    for (let row = from; row < to; row++) {
      const it = this.picture.rows[row];
      if (it.actor === null || !this.picture.lanes.includes(it.actor)) continue;
      const [x, y] = [this.x(it.actor), this.y(row)];
      if (it.kind !== "giving") made.append(shape("circle", { cx: x, cy: y, r: 4, class: it.kind }));
      if (it.cause) made.append(shape("text", { x: x + 8, y: y + 4, class: "cause" }, it.cause));
      if (it.grown.length === 0) continue;
      made.append(shape("rect", { x: x - 4, y: y - 4, width: 8, height: 8, class: "grown" }));
      made.append(shape("text", { x: x + 8, y: y + 4, class: "grown" }, it.grown.map(growthWords).join(", ")));
    }
    return made;
  }

  labels(from, to) {
    const { letters } = this.sizes;
    const width = this.sizes.labels - 10;
    const ground = { x: 0, y: HEAD, width, height: this.high, class: "ground" };
    const made = group("labels", shape("rect", ground));
    if (this.selected !== null && this.selected >= from && this.selected < to) {
      const y = this.y(this.selected) - ROW / 2;
      made.append(shape("rect", { x: 0, y, width, height: ROW, class: "selected" }));
    }
    for (let row = from; row < to; row++) {
      const it = this.picture.rows[row];
      const label = labelOf(it, this.picture);
      const text = this.sizes === NARROW ? label.trimStart() : label;
      const short = text.length > letters ? `${text.slice(0, letters - 1)}…` : text;
      const title = shape("title", {}, rowWords(it, this.picture));
      const kind = it.cause ? `${it.kind} dropped` : it.kind;
      made.append(shape("text", { x: 8, y: this.y(row) + 4, class: kind }, short, title));
    }
    if (this.picture.epochs.length === 1) return made;
    for (const { epoch, begin } of this.epochsInView(from, to)) {
      const y = Math.max(this.y(begin), HEAD + ROW / 2) + 4;
      made.append(shape("text", { x: width - 6, y, class: "epoch" }, `epoch ${epoch}`));
    }
    return made;
  }

  // The names of the lanes, above the rows in view.
  heads() {
    const made = group("heads", shape("rect", { x: 0, y: 0, width: this.wide, height: HEAD - 4 }));
    for (const party of this.picture.lanes) {
      const isLiar = this.picture.liars.has(party);
      const name = this.sizes.name(party);
      const place = { x: this.x(party), y: 20, class: isLiar ? "liar" : "" };
      made.append(shape("text", place, isLiar ? `${name} (liar)` : name));
    }
    made.append(shape("rect", { x: 0, y: 0, width: this.sizes.labels - 10, height: HEAD - 4 }));
    return made;
  }
}

// The first place in a list, sorted by a key, whose key is at least this.
function lowerBound(list, least, key) {
  let [low, high] = [0, list.length];
  while (low < high) {
    const middle = (low + high) >> 1;
    if (key(list[middle]) < least) low = middle + 1;
    else high = middle;
  }
  return low;
}
