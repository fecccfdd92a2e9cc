// What is printed, as rows; and the script's lines that they are of.

// What the numbers of statuses mean: those of the exits of the command `its`.
const STATUS = {
  0: "done",
  1: "the input is no script",
  5: "memory ran out",
  6: "the description makes no machine",
  7: "the state can't be saved, so the machine isn't moved",
  8: "a leg has more calls than places",
  9: "the input is too long",
  10: "the report is that of no run of this script",
  11: "what follows the script is no report",
};

const ENTRY = /^(\d+) (\d+)\.(\d+) (b )?(.*?) -> (.*)$/;
const FAILED = /^(dropped|refused|outside|queue-fault|save-fault)/;

// The rows of a text that `its explain` prints: lines of a report, each with what explains it.
function readRows(text) {
  const rows = [];
  let leg = 0;
  for (const line of text.split("\n")) {
    if (line === "") continue;
    if (line.startsWith("    ") && rows.length > 0) {
      const last = rows[rows.length - 1];
      last.why.push(last.kind === "call" ? line.trim() : line.slice(4));
      continue;
    }
    const row = { line, why: [], index: rows.length, ...readRow(line, leg) };
    leg = row.leg;
    rows.push(row);
  }
  return rows;
}

function readRow(line, leg) {
  let m;
  if ((m = /^leg (\d+)$/.exec(line))) return { kind: "leg", leg: +m[1] };
  if ((m = ENTRY.exec(line))) {
    const [, place, phase, thread, second, call, reply] = m;
    const seat = { place: +place, phase: +phase, thread: +thread, its: second ? 1 : 0 };
    return { kind: "call", leg, ...seat, call, reply, bad: FAILED.test(reply) };
  }
  if ((m = /^vcpu (\d+) pending (.*)$/.exec(line)))
    return { kind: "vcpu", leg, vcpu: +m[1], pending: m[2] };
  if (/^(migrated|done)/.test(line)) return { kind: "end", leg };
  return { kind: "text", leg, bad: /^(refused|differs)/.test(line), good: line === "agrees" };
}

// Where each thread's calls stand in a script: by leg, phase and thread, the lines in their order.
function readScript(text) {
  const lines = new Map(), rows = text.split("\n");
  let leg = 1, phase = 0, thread = 0, many = false, calls = null;
  rows.forEach((row, index) => {
    const word = row.trim().split(/ +/, 1)[0];
    if (word === "" || word.startsWith("#")) return;
    if (word === "phase") {
      phase += 1;
      thread = 0;
      calls = null;
    } else if (word === "migrate" || word === "precopy") {
      leg += 1;
      phase = 0;
      calls = null;
    } else if (word === "thread" && phase > 0) {
      thread += 1;
      many = many || thread > 1;
      calls = [];
      lines.set(leg + "/" + phase + "/" + thread, calls);
    } else if (word === "end" || word === "trace") {
      calls = null;
    } else if (calls !== null) {
      calls.push(index + 1);
    }
  });
  return { lines, many, rows: rows.length };
}

// Gives each entry the number of its line in the script.
function placeRows(rows, script) {
  const made = new Map();
  for (const row of rows) {
    if (row.kind !== "call") continue;
    const key = row.leg + "/" + row.phase + "/" + row.thread, next = made.get(key) ?? 0;
    made.set(key, next + 1);
    row.at = script.lines.get(key)?.[next] ?? null;
  }
}

// The line of a script that a refusal names.
function faultLine(said) {
  const line = /^refused (?:script|machine bytes|machine requester) (\d+)/.exec(said.text);
  return line === null ? null : +line[1];
}
