// Reads a scenario as far as a picture needs it: its events as lines, who lies, and who guards whom. What is no
// scenario is for the program to tell; here it is read as one that says nothing.
"use strict";

// Reads TOML: texts, integers, truths, arrays and tables, which is all that scenarios have. It throws at what it
// doesn't know.
class Toml {
  constructor(text) {
    this.text = text.replaceAll("\r\n", "\n");
    this.at = 0;
    this.top = {};
  }

  // A piece at this place by a pattern with the flag y; nothing where there is none.
  take(pattern) {
    pattern.lastIndex = this.at;
    const found = pattern.exec(this.text);
    if (!found) return null;
    this.at = pattern.lastIndex;
    return found;
  }

  need(pattern) {
    const found = this.take(pattern);
    if (!found) throw new SyntaxError(`TOML at ${this.at}`);
    return found;
  }

  document() {
    let table = this.top;
    for (;;) {
      this.take(/(?:\s|#[^\n]*)*/y);
      if (this.at === this.text.length) return this.top;
      const header = this.take(/\[\[[ \t]*([\w-]+)[ \t]*\]\]/y);
      if (header) (this.top[header[1]] ??= []).push((table = {}));
      else this.entry(table);
      this.need(/[ \t]*(?:#[^\n]*)?(?:\n|$)/y);
    }
  }

  entry(table) {
    const key = this.need(/[ \t]*([\w-]+)[ \t]*=[ \t]*/y)[1];
    table[key] = this.value();
  }

  value() {
    const long = this.take(/'''\n?([^]*?'{0,2})'''(?!')|"""\n?((?:[^\\]|\\[^])*?"{0,2})"""(?!")/y);
    if (long) return long[1] ?? this.unescaped(long[2]);
    const short = this.take(/'([^'\n]*)'|"((?:[^"\\\n]|\\.)*)"/y);
    if (short) return short[1] ?? this.unescaped(short[2]);
    const number = this.take(/[+-]?\d[\d_]*/y);
    if (number) return Number(number[0].replaceAll("_", ""));
    const truth = this.take(/true|false/y);
    if (truth) return truth[0] === "true";
    if (this.take(/\[/y)) return this.members(/\]/y, (made) => made.push(this.value()), []);
    this.need(/\{/y);
    return this.members(/\}/y, (made) => this.entry(made), {});
  }

  // What stands between commas, up to a bracket.
  members(close, member, made) {
    const gap = /(?:\s|#[^\n]*)*/y;
    for (;;) {
      this.take(gap);
      if (this.take(close)) return made;
      member(made);
      this.take(gap);
      if (!this.take(/,/y)) {
        this.need(close);
        return made;
      }
    }
  }

  unescaped(text) {
    const named = { n: "\n", t: "\t", r: "\r", b: "\b", f: "\f", e: "\x1b" };
    const escape = /\\(?:\s*\n\s*|u([\da-fA-F]{4})|U([\da-fA-F]{8})|x([\da-fA-F]{2})|([^]))/g;
    return text.replace(escape, (all, four, eight, two, one) => {
      const digits = four ?? eight ?? two;
      if (digits) return String.fromCodePoint(parseInt(digits, 16));
      return one === undefined ? "" : (named[one] ?? one);
    });
  }
}

// The hosts to which links lead from a host, itself among them.
function componentOf(host, links) {
  const reached = new Set([host]);
  for (const from of reached) {
    for (const [a, b] of links) {
      if (a === from) reached.add(b);
      if (b === from) reached.add(a);
    }
  }
  return reached;
}

// The guards of a host where its epoch lists none (docs/RULES.md, "Plans").
function plannedGuards(host, hosts, links, thresholds) {
  const near = componentOf(host, links);
  const greatest = Math.max(...[...near].map((it) => thresholds[it]));
  const all = [...Array(hosts).keys()];
  const order = [...all.filter((it) => near.has(it)), ...all.filter((it) => !near.has(it))];
  return new Set([...order.slice(0, 3 * greatest + 1), host]);
}

// Of an epoch, for each host: its guards, and how many of their votes are a quorum.
function epochOf(table, hosts, links) {
  const all = [...Array(hosts).keys()];
  const thresholds = table.thresholds ?? all.map(() => table.t);
  const planned = (host) => plannedGuards(host, hosts, links, thresholds);
  const guards = table.guards ? table.guards.map((it) => new Set(it)) : all.map(planned);
  return { guards, quorums: all.map((it) => Math.floor((guards[it].size + thresholds[it]) / 2) + 1) };
}

// The lines of a text that tell something (docs/FORMATS.md, "Texts, lines and numbers"), each with its number.
function tellingLines(text) {
  return text
    .split("\n")
    .map((line, at) => ({ number: at + 1, text: line.trim().replace(/[ \t]+/g, " ") }))
    .filter((it) => it.text !== "" && !it.text.startsWith("#"));
}

// What a picture takes from a scenario. `command` is the one that its first line names, as examples do.
function readScenario(scenario) {
  const named = /^# nysiad (\w+)/.exec(scenario);
  const said = { command: named ? named[1] : null, hosts: 0, events: [], liars: new Set(), epochs: [] };
  try {
    const { hosts, links, liars, schedule, epoch } = new Toml(scenario).document();
    said.events = tellingLines(schedule ?? "").map((it) => it.text);
    said.liars = new Set(liars ?? []);
    said.hosts = hosts;
    said.epochs = (epoch ?? []).map((it) => epochOf(it, hosts, links));
  } catch (unread) {
    // Half a scenario, as while one is typed: what was read of it stands.
  }
  return said;
}

// Where a fault of a line stands in the document: [begin, end] of line `number` of the text of a key, or nothing.
function placeOfLine(scenario, key, number) {
  const found = new RegExp(`^${key}[ \\t]*=[ \\t]*('''|""")\\n?`, "m").exec(scenario);
  if (!found) return null;
  let begin = found.index + found[0].length;
  for (let line = 1; line < number; line++) begin = scenario.indexOf("\n", begin) + 1;
  const end = scenario.indexOf("\n", begin);
  return [begin, end < 0 ? scenario.length : end];
}
