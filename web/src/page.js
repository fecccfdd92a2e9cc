// The page: a script at the left, what comes of it at the right. A click marks the call, its line
// and its place.

const $ = (id) => document.getElementById(id);
const LINE = 19, PAD = 8, MOST_ROWS = 1500;

const state = {
  open: false,
  rows: [],
  tops: [],
  script: { lines: new Map(), many: false, rows: 1 },
  picture: null,
  chosen: -1,
  bad: null,
  wait: 150,
  timer: 0,
  pasting: false,
};

// ---- the beginning

async function openPage() {
  const bytes = Uint8Array.from(atob(MODULE), (c) => c.charCodeAt(0));
  try {
    await startAsking(bytes);
  } catch (error) {
    say("this browser runs no WebAssembly with 64-bit memory: " + error.message, "bad");
    return;
  }
  const size = Math.round(bytes.length / 1024);
  $("about").textContent = "The module has " + size + " KiB of WebAssembly.";
  state.open = true;
  await readLink();
  run();
}

function say(text, kind) {
  $("state").textContent = text;
  $("state").className = kind;
}

function orderNow() {
  const text = $("order").value.trim();
  return /^\d{1,19}$/.test(text) ? text : "0";
}

// ---- runs and checks

async function run() {
  clearTimeout(state.timer);
  if (!state.open) return;
  const input = $("script").value;
  state.script = readScript(input);
  $("orders").hidden = !state.script.many;
  const said = await ask("explain", input);
  if (said !== null) show(said);
}

const ended = (text) => (text === "" || text.endsWith("\n") ? text : text + "\n");

async function check() {
  if (!state.open) return;
  const text = ended($("script").value) + "trace\n" + ended($("other").value);
  const said = await ask("explain", text);
  if (said !== null) show(said);
}

function show(said) {
  state.wait = Math.min(3000, Math.max(150, 3 * said.ms));
  state.rows = readRows(said.text);
  placeRows(state.rows, state.script);
  state.bad = faultLine(said);
  state.chosen = -1;
  showState(said);
  $("fault").hidden = state.bad === null;
  $("fault").textContent = state.bad === null ? "" : said.text.trimEnd();
  $("script").setAttribute("aria-invalid", String(state.bad !== null));
  const calls = state.rows.some((row) => row.kind === "call");
  state.picture = calls ? layOut(state.rows) : null;
  showPicture();
  showRows();
  drawLines();
}

function showState(said) {
  const agrees = said.status === 0 && state.rows[0]?.good;
  const what = agrees ? "agrees" : STATUS[said.status] ?? "status " + said.status;
  const took = said.ms.toFixed(said.ms < 10 ? 1 : 0) + " ms";
  say(what + " · " + took, said.status === 0 ? "good" : "bad");
}

// ---- the script's lines: numbers and marks of those that are seen

function drawLines() {
  const box = $("script"), top = box.scrollTop;
  const first = Math.max(1, Math.floor((top - PAD) / LINE) + 1);
  const last = Math.min(state.script.rows, first + Math.ceil(box.clientHeight / LINE) + 1);
  const chosen = state.rows[state.chosen]?.at ?? null;
  const numbers = [], marks = [];
  for (let n = first; n <= last; n++) {
    const kind = n === state.bad ? "bad" : n === chosen ? "on" : "";
    numbers.push(lineBox(n, top, kind, (kind === "bad" ? "▸" : "") + n));
    if (kind !== "") marks.push(lineBox(n, top, kind, ""));
  }
  $("gutter").replaceChildren(...numbers);
  $("marks").replaceChildren(...marks);
}

function lineBox(n, top, kind, text) {
  const box = document.createElement("div");
  box.className = kind;
  box.textContent = text;
  box.style.top = PAD + (n - 1) * LINE - top + "px";
  return box;
}

function seeLine(n) {
  const box = $("script"), top = PAD + (n - 1) * LINE;
  if (top < box.scrollTop || top > box.scrollTop + box.clientHeight - 2 * LINE)
    box.scrollTop = top - box.clientHeight / 2;
}

// ---- the report: all rows where there are few, else those that are seen

function showRows() {
  const many = state.rows.length > MOST_ROWS;
  let top = 0;
  state.tops = state.rows.map((row) => {
    const at = { x: top };
    top += (1 + row.why.length) * LINE;
    return at;
  });
  $("rows").className = many ? "many" : "";
  $("rows").style.height = many ? top + "px" : "";
  $("rows").replaceChildren();
  $("report").scrollTop = 0;
  if (many) drawRows();
  else $("rows").append(...state.rows.map(rowBox));
}

function drawRows() {
  if (state.rows.length <= MOST_ROWS) return;
  const box = $("report"), bottom = box.scrollTop + box.clientHeight + 200;
  const boxes = [];
  let i = Math.max(0, firstAt(state.tops, box.scrollTop - 200) - 1);
  for (; i < state.rows.length && state.tops[i].x <= bottom; i++) {
    const row = rowBox(state.rows[i]);
    row.style.top = state.tops[i].x + "px";
    boxes.push(row);
  }
  $("rows").replaceChildren(...boxes);
}

function kindOf(row) {
  if (row.kind === "leg") return " head";
  if (row.bad) return " bad";
  return row.good || /^(delivered|lpi)/.test(row.reply ?? "") ? " good" : "";
}

function rowBox(row) {
  const box = document.createElement("div"), chosen = row.index === state.chosen;
  box.className = "row" + kindOf(row) + (chosen ? " on" : "");
  box.id = "row" + row.index;
  box.dataset.row = row.index;
  box.setAttribute("role", "option");
  box.setAttribute("aria-selected", String(chosen));
  box.setAttribute("aria-posinset", row.index + 1);
  box.setAttribute("aria-setsize", state.rows.length);
  box.textContent = row.line;
  for (const why of row.why) {
    const more = document.createElement("span");
    more.className = "why";
    more.textContent = why;
    box.append(more);
  }
  return box;
}

function seeRow(index) {
  if (state.rows.length <= MOST_ROWS) {
    $("row" + index)?.scrollIntoView({ block: "nearest" });
    return;
  }
  const box = $("report"), top = state.tops[index].x;
  if (top < box.scrollTop || top > box.scrollTop + box.clientHeight - 3 * LINE)
    box.scrollTop = top - box.clientHeight / 3;
  drawRows();
}

// ---- the picture

function showPicture() {
  const picture = state.picture;
  $("picture").hidden = picture === null;
  if (picture === null) return;
  $("canvas").style.width = picture.width - LEFT + "px";
  $("canvas").style.height = picture.height + "px";
  $("scroller").scrollLeft = 0;
  const what = picture.calls.length + " calls, " + picture.threads + " threads at most, "
    + picture.vcpus.length + " virtual processors";
  const how = "The report tells the same. Arrows go from call to call.";
  $("scroller").setAttribute("aria-label", "The history: " + what + ". " + how);
  drawPicture();
}

function drawPicture() {
  const picture = state.picture;
  if (picture === null) return;
  const box = $("scroller");
  const from = Math.floor(box.scrollLeft / COLUMN) - 4;
  const to = Math.ceil((box.scrollLeft + box.clientWidth) / COLUMN) + 4;
  const drawn = draw(picture, from, to, state.rows[state.chosen]);
  $("names").innerHTML = drawn.names;
  $("drawn").innerHTML = drawn.svg;
  $("drawn").firstChild.style.left = drawn.left - LEFT + "px";
}

function seeColumn(x) {
  const box = $("scroller"), left = x * COLUMN;
  if (left < box.scrollLeft + COLUMN || left > box.scrollLeft + box.clientWidth - 3 * COLUMN)
    box.scrollLeft = left - box.clientWidth / 2;
}

// ---- marks

function mark(index, on) {
  const box = $("row" + index);
  if (box === null) return;
  box.classList.toggle("on", on);
  box.setAttribute("aria-selected", String(on));
  if (on) $("report").setAttribute("aria-activedescendant", box.id);
}

function choose(index) {
  const row = state.rows[index];
  if (row === undefined) return;
  mark(state.chosen, false);
  state.chosen = index;
  seeRow(index);
  mark(index, true);
  tell(row);
  if (row.at) seeLine(row.at);
  if (row.x !== undefined) seeColumn(row.x);
  drawLines();
  drawPicture();
}

// The chosen row, for who reads by ear and isn't in the report.
function tell(row) {
  const inside = document.activeElement === $("report");
  $("told").textContent = inside ? "" : row.line + ". " + row.why.join(" ");
}

// The first call of the line that the cursor stands in.
function chooseLine() {
  const box = $("script"), n = box.value.slice(0, box.selectionStart).split("\n").length;
  const row = state.rows.find((one) => one.at === n);
  if (row !== undefined && row.index !== state.chosen) choose(row.index);
}

function stepRow(event, steps) {
  const step = steps[event.key];
  if (step === undefined || state.rows.length === 0) return;
  event.preventDefault();
  choose(Math.max(0, Math.min(state.rows.length - 1, step(state.chosen))));
}

// The next call before or behind a row.
function nextCall(from, by) {
  for (let i = from + by; i >= 0 && i < state.rows.length; i += by)
    if (state.rows[i].kind === "call") return i;
  return from;
}
