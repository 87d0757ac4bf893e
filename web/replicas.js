// Beside the picture: how far each guard's replica of each host is, and what the run left of each host.
"use strict";

// The lengths of all logs that guards have at a row, or at the end where there is none: `guard of host` to a number.
// Those of which the packets don't tell where they grew aren't known before the end.
function lengthsAt(picture, row) {
  const lengths = new Map();
  const atFirst = (length) => (row === null || length === 0 ? length : NaN);
  for (const it of picture.text.guards) lengths.set(`${it.guard} of ${it.host}`, atFirst(it.length));
  if (row === null) return lengths;
  for (const it of picture.growths) lengths.set(`${it.guard} of ${it.host}`, 0);
  for (const it of picture.growths) {
    if (it.row > row) break;
    lengths.set(`${it.guard} of ${it.host}`, it.length);
  }
  return lengths;
}

function cell(row, text, kind) {
  const made = row.insertCell();
  made.textContent = text;
  if (kind) made.className = kind;
  return made;
}

function heading(row, text) {
  const made = document.createElement("th");
  made.textContent = text;
  made.scope = row.rowIndex === 0 ? "col" : "row";
  row.append(made);
}

function table(caption, heads) {
  const made = document.createElement("table");
  made.createCaption().textContent = caption;
  const row = made.insertRow();
  for (const it of heads) heading(row, it);
  return made;
}

// A line for each host, a column for each guard. A replica that is behind the longest of its host says by how much,
// and one that is closed stands in brackets.
function replicasTable(picture, row) {
  const { guards, hosts } = picture.text;
  const lengths = lengthsAt(picture, row);
  const columns = [...new Set(guards.map((it) => it.guard))].sort((a, b) => a - b);
  const until = row === null ? "at the end" : "so far";
  const made = table(`Entries in each replica, ${until}`, ["of", ...columns.map((it) => `at ${it}`)]);
  for (const { host } of hosts) {
    const line = made.insertRow();
    heading(line, `host ${host}`);
    const ofHost = guards.filter((it) => it.host === host);
    const known = ofHost.map((it) => lengths.get(`${it.guard} of ${host}`)).filter((it) => !isNaN(it));
    const longest = Math.max(0, ...known);
    for (const guard of columns) {
      const replica = ofHost.find((it) => it.guard === guard);
      if (!replica) cell(line, "");
      else if (isNaN(lengths.get(`${guard} of ${host}`))) cell(line, "?");
      else replicaCell(line, replica, lengths.get(`${guard} of ${host}`), longest, row === null);
    }
  }
  return made;
}

function replicaCell(line, replica, length, longest, isEnd) {
  const behind = longest - length;
  const isClosed = isEnd && !replica.isLive;
  const text = isClosed ? `(${length})` : `${length}`;
  const kind = `${behind ? "behind" : ""} ${isClosed ? "closed" : ""}`;
  const made = cell(line, behind ? `${text} −${behind}` : text, kind);
  made.style.setProperty("--share", longest ? length / longest : 0);
  const state = isEnd ? `, state ${replica.state}, out ${replica.out}` : "";
  const has = `guard ${replica.guard} has ${length} of ${longest} entries of host ${replica.host}`;
  made.title = `${has}${state}${isClosed ? ", closed" : ""}`;
}

function hostsTable(picture) {
  const made = table("What the run left", ["host", "", "state", "out"]);
  for (const it of picture.text.hosts) {
    const line = made.insertRow();
    heading(line, `${it.host}${picture.liars.has(it.host) ? " (liar)" : ""}`);
    cell(line, it.isRunning ? "runs" : "stopped");
    cell(line, it.state);
    cell(line, it.out);
  }
  return made;
}

// Both tables, as they stand at a row of the picture, or at the end.
function replicaTables(picture, row) {
  return picture.text.guards.length ? [replicasTable(picture, row), hostsTable(picture)] : [hostsTable(picture)];
}
