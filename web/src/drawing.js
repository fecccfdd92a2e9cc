// The picture of a report: places along, a lane for each thread, a row for each mapped event, a
// lane for each virtual processor. Only the columns that are seen are drawn.

const COLUMN = 24, LEFT = 112, TOP = 54, LANE = 28, ROW = 20, RIGHT = 150;
const MOST_EVENTS = 16, MOST_VCPUS = 16;

// Where everything stands, once for a report.
function layOut(rows) {
  const picture = placeColumns(rows);
  picture.events = followEvents(picture.calls);
  picture.vcpus = usedVcpus(picture.calls, picture.ends);
  picture.keys = new Set(picture.events.map((event) => event.key)).size;
  picture.eventRows = Math.min(picture.keys, MOST_EVENTS);
  picture.eventTop = TOP + picture.threads * LANE + 14;
  picture.vcpuTop = picture.eventTop + picture.eventRows * ROW + 8;
  picture.width = LEFT + (picture.columns + 1) * COLUMN + RIGHT;
  picture.placeTop = picture.vcpuTop + Math.max(1, picture.vcpus.length) * ROW + 6;
  picture.height = picture.placeTop + 18;
  return picture;
}

// Each call has a column, and a leg's end has some. Walls stand where phases and legs begin.
function placeColumns(rows) {
  const calls = [], walls = [], ends = [];
  let x = 0, phase = 0, threads = 1, moved = "";
  for (const row of rows) {
    if (row.kind === "leg") {
      phase = 0;
      if (row.leg > 1) walls.push({ x: x++, text: moved + ": leg " + row.leg, thick: true });
    }
    if (row.kind === "call") {
      if (row.phase !== phase) walls.push({ x, text: "phase " + row.phase, thick: false });
      phase = row.phase;
      row.x = x++;
      calls.push(row);
      threads = Math.max(threads, row.thread);
    }
    if (row.kind === "vcpu") {
      row.x = x;
      ends.push(row);
    }
    if (row.kind === "end" && row.line !== "done") {
      moved = row.line;
      x += 4;
    }
  }
  return { calls, walls, ends, threads, columns: x };
}

// ---- events, by what the lines of explanations say

class Events {
  constructor() {
    this.open = new Map();
    this.all = [];
  }

  begin(its, dev, ev, lpi, x) {
    const key = its + "/" + dev + "/" + ev;
    const event = { key, its, dev, ev, lpi, from: x, to: null, by: "", moves: [] };
    this.open.set(key, event);
    this.all.push(event);
    return event;
  }

  end(key, x, by) {
    const event = this.open.get(key);
    if (event === undefined) return;
    event.to = x;
    event.by = by;
    this.open.delete(key);
  }
}

// From the command that mapped each to the one that ended it.
function followEvents(calls) {
  const events = new Events();
  for (const call of calls) {
    if (call.call === "step" && call.reply.startsWith("ran")) followStep(events, call);
    let m = /^delivered (\d+) (\d+)/.exec(call.reply);
    if (m) Object.assign(call, { vcpu: +m[1], lpi: +m[2] });
    if ((m = /^signal (\d+) (\d+)/.exec(call.call))) {
      const open = events.open.get(call.its + "/" + m[1] + "/" + m[2]);
      const found = call.lpi !== undefined;
      call.event = open ?? (found ? events.begin(call.its, m[1], m[2], call.lpi, null) : null);
    }
    if ((m = /^(take|claim) (\d+)/.exec(call.call))) {
      call.vcpu = +m[2];
      call.took = /^lpi/.test(call.reply) || call.reply === "ok";
    }
  }
  return events.all;
}

function followStep(events, call) {
  const why = call.why.join(" "), its = call.its;
  let m;
  if ((m = /event (\d+) of device (\d+) is LPI (\d+)/.exec(why))) {
    events.end(its + "/" + m[2] + "/" + m[1], call.x, "mapti");
    events.begin(its, m[2], m[1], m[3], call.x);
  } else if ((m = /event (\d+) of device (\d+) goes to collection/.exec(why))) {
    events.open.get(its + "/" + m[2] + "/" + m[1])?.moves.push(call.x);
  } else if (/^ran discard/.test(call.reply) && (m = /event (\d+) of device (\d+)/.exec(why))) {
    events.end(its + "/" + m[2] + "/" + m[1], call.x, "discard");
  } else if (/^ran mapd/.test(call.reply) && (m = /device (\d+)/.exec(why))) {
    for (const event of [...events.open.values()])
      if (event.its === its && event.dev === m[1]) events.end(event.key, call.x, "mapd");
  }
}

// The virtual processors that something comes to, and the first ones.
function usedVcpus(calls, ends) {
  const used = new Set();
  for (const call of calls) if (call.vcpu !== undefined) used.add(call.vcpu);
  for (const row of ends) if (row.pending !== "none" || row.vcpu < 4) used.add(row.vcpu);
  return [...used].sort((a, b) => a - b).slice(0, MOST_VCPUS);
}

// ---- drawing

const ENTITIES = { "&": "&amp;", "<": "&lt;", ">": "&gt;", '"': "&quot;" };
const escapeText = (text) => text.replace(/[&<>"]/g, (c) => ENTITIES[c]);
const middle = (x) => LEFT + (x + 0.5) * COLUMN;
const laneAt = (thread) => TOP + (thread - 0.5) * LANE;
const hue = (vcpu) => "v" + (vcpu % 4);

function line(kind, x1, y1, x2, y2) {
  return `<line class="${kind}" x1="${x1}" y1="${y1}" x2="${x2}" y2="${y2}"/>`;
}

function text(kind, x, y, what) {
  return `<text class="${kind}" x="${x}" y="${y}">${escapeText(what)}</text>`;
}

// The first of a list that is sorted by x, at or after a column.
function firstAt(list, x) {
  let low = 0, high = list.length;
  while (low < high) {
    const mid = (low + high) >> 1;
    if (list[mid].x < x) low = mid + 1;
    else high = mid;
  }
  return low;
}

// What a sorted list has between two columns.
function between(list, from, to) {
  const found = [];
  for (let i = firstAt(list, from); i < list.length && list[i].x <= to; i++) found.push(list[i]);
  return found;
}

// The picture between two columns: an SVG as wide as they are, where it stands, and the names at
// the left.
function draw(picture, first, last, chosen) {
  const from = Math.max(0, first), to = Math.min(picture.columns + 6, last);
  const rows = rowsOfEvents(picture, from, to);
  const at = {
    event: (key) => (rows.has(key) ? picture.eventTop + (rows.get(key) + 0.5) * ROW : null),
    vcpu: (vcpu) => {
      const row = picture.vcpus.indexOf(vcpu);
      return row < 0 ? null : picture.vcpuTop + (row + 0.5) * ROW;
    },
    left: from === 0 ? 0 : middle(from) - COLUMN / 2,
    right: Math.min(picture.width, middle(to) + COLUMN / 2),
    bottom: picture.placeTop,
    places: picture.height - 5,
  };
  const inside = [
    ...drawLanes(picture, at),
    ...between(picture.walls, from - 4, to).map((wall) => drawWall(wall, at)),
    ...picture.events.map((event) => drawEvent(event, at, from, to)),
    ...between(picture.calls, from, to).map((call) => drawColumn(call, at, chosen)),
    ...between(picture.ends, from, to).map((row) => drawPending(row, at)),
    ...between(picture.calls, from, to).map((call) => drawPlace(call, at, chosen)),
  ].join("");
  const width = at.right - at.left, height = picture.height;
  const svg = svgOf(width, height, `${at.left} 0 ${width} ${height}`, inside);
  return { left: at.left, svg, names: drawNames(picture, rows, at) };
}

function svgOf(width, height, box, inside) {
  const size = `width="${width}" height="${height}" viewBox="${box}"`;
  return `<svg ${size} aria-hidden="true">${inside}</svg>`;
}

// The rows of events: all where there are few, else of those that are seen.
function rowsOfEvents(picture, from, to) {
  const rows = new Map();
  for (const event of picture.events) {
    if (rows.size >= MOST_EVENTS) break;
    const all = picture.keys <= MOST_EVENTS;
    const seen = (event.from ?? 0) <= to && (event.to ?? Infinity) >= from;
    if (!rows.has(event.key) && (all || seen)) rows.set(event.key, rows.size);
  }
  return rows;
}

function drawNames(picture, rows, at) {
  const parts = [];
  for (let t = 1; t <= picture.threads; t++) parts.push(text("", 8, laneAt(t) + 4, "thread " + t));
  for (const key of rows.keys()) {
    const [its, dev, ev] = key.split("/");
    const name = (its === "0" ? "" : "b ") + "dev " + dev + " ev " + ev;
    parts.push(text("", 8, at.event(key) + 4, name));
  }
  for (const vcpu of picture.vcpus)
    parts.push(text(hue(vcpu), 8, at.vcpu(vcpu) + 4, "vCPU " + vcpu));
  parts.push(text("dim", 8, at.places, "place"));
  const height = picture.height;
  return svgOf(LEFT, height, `0 0 ${LEFT} ${height}`, parts.join(""));
}

function drawLanes(picture, at) {
  const parts = [];
  for (let t = 1; t <= picture.threads; t++)
    parts.push(line("lane", at.left, laneAt(t), at.right, laneAt(t)));
  for (const vcpu of picture.vcpus)
    parts.push(line("lane", at.left, at.vcpu(vcpu), at.right, at.vcpu(vcpu)));
  return parts;
}

function drawWall(wall, at) {
  const x = middle(wall.x) - COLUMN / 2;
  return line(wall.thick ? "wall thick" : "wall", x, 4, x, at.bottom)
    + text("dim", x + 4, wall.thick ? 26 : 12, wall.text);
}

function drawEvent(event, at, from, to) {
  const y = at.event(event.key);
  const a = Math.max(at.left, event.from === null ? LEFT : middle(event.from));
  const b = Math.min(at.right, event.to === null ? Infinity : middle(event.to));
  if (y === null || b < a) return "";
  const parts = [
    `<rect class="bar" x="${a}" y="${y - 5}" width="${Math.max(2, b - a)}" height="10" rx="3"/>`,
    text("small dim", a + 5, y + 4, "LPI " + event.lpi),
  ];
  if (event.to !== null && event.to <= to)
    parts.push(line("cut", b, y - 8, b, y + 8), text("small dim", b + 4, y + 4, event.by));
  for (const x of event.moves.filter((one) => one >= from && one <= to))
    parts.push(`<path class="move" d="M${middle(x)} ${y - 7}l4 7l-4 7l-4 -7z"/>`);
  return parts.join("");
}

// A column that can be clicked, and the call in it.
function drawColumn(call, at, chosen) {
  const left = middle(call.x) - COLUMN / 2, kind = call === chosen ? "hit on" : "hit";
  const title = escapeText(call.line + "\n" + call.why.join("\n"));
  return `<rect class="${kind}" data-row="${call.index}" x="${left}" y="30" width="${COLUMN}"`
    + ` height="${at.bottom - 30}"><title>${title}</title></rect>` + drawCall(call, at);
}

// Each fifth place has its number, and the chosen one.
function drawPlace(call, at, chosen) {
  if (call.place % 5 !== 0 && call !== chosen) return "";
  const kind = call === chosen ? "small middle" : "small dim middle";
  return text(kind, middle(call.x), at.places, String(call.place));
}

function drawCall(call, at) {
  const x = middle(call.x), y = laneAt(call.thread);
  const to = call.vcpu === undefined ? null : at.vcpu(call.vcpu);
  if (/^(signal|dma)/.test(call.call)) return drawSignal(call, x, y, to, at);
  if (call.call === "step") return drawStep(call, x, y);
  if (/^(take|claim)/.test(call.call)) return drawTake(call, x, y, to);
  const bad = call.bad ? " bad" : "";
  if (call.call === "save") return `<path class="save${bad}" d="M${x - 6} ${y - 5}h12v10h-12z"/>`;
  return line("tick" + bad, x, y - 5, x, y + 5);
}

function drawStep(call, x, y) {
  const kind = call.bad ? " bad" : call.reply === "idle" ? " idle" : "";
  const word = escapeText(call.reply.split(" ")[1] ?? call.reply);
  const turned = `translate(${x - 2} ${y - 9}) rotate(-38)`;
  return `<rect class="step${kind}" x="${x - 5}" y="${y - 5}" width="10" height="10" rx="2"/>`
    + `<text class="small${call.bad ? " bad" : " dim"}" transform="${turned}">${word}</text>`;
}

// An acknowledgement, and what it took.
function drawTake(call, x, y, to) {
  const own = hue(call.vcpu);
  const mark = `<path class="${own} ${call.took ? "full" : "none"}" d="M${x} ${y - 6}l6 10h-12z"/>`;
  if (!call.took || to === null) return mark;
  return mark + line("took " + own, x, y + 4, x, to - 5)
    + `<circle class="ring ${own}" cx="${x}" cy="${to}" r="5"/>`;
}

// A message goes down to its processor, or it is crossed.
function drawSignal(call, x, y, to, at) {
  const eventY = call.event ? at.event(call.event.key) : null;
  if (call.lpi !== undefined && to !== null) {
    const own = hue(call.vcpu);
    const dot = (at, r) => `<circle class="full ${own}" cx="${x}" cy="${at}" r="${r}"/>`;
    return line("sent " + own, x, y, x, to) + dot(y, 5) + (eventY === null ? "" : dot(eventY, 3))
      + `<path class="full ${own}" d="M${x - 4} ${to - 7}h8l-4 7z"/>`;
  }
  if (/^(ok|written)/.test(call.reply)) return line("tick", x, y - 5, x, y + 5);
  const end = eventY ?? y;
  return `<circle class="lost" cx="${x}" cy="${y}" r="5"/>`
    + (eventY === null ? "" : line("lost", x, y + 5, x, end))
    + `<path class="cross" d="M${x - 4} ${end - 4}l8 8m0 -8l-8 8"/>`;
}

// What is pending at the end of a leg.
function drawPending(row, at) {
  const y = at.vcpu(row.vcpu), none = row.pending === "none";
  if (y === null) return "";
  const many = row.pending.split(" ").length + " LPIs pending";
  const what = none ? "none" : row.pending.length > 16 ? many : "pending " + row.pending;
  return text(none ? "small dim" : "small", middle(row.x) - COLUMN / 2 + 3, y + 4, what);
}
