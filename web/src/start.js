// What the page listens to, and links that carry a script.

function later() {
  clearTimeout(state.timer);
  state.script = readScript($("script").value);
  drawLines();
  state.timer = setTimeout(run, state.wait);
}

function stepOrder(by) {
  const now = BigInt(orderNow());
  $("order").value = String(by < 0 && now === 0n ? 0n : now + BigInt(by));
  run();
}

function openExample(name) {
  if (EXAMPLES[name] === undefined) return;
  $("example").value = name;
  $("script").value = EXAMPLES[name];
  $("script").scrollTop = 0;
}

// ---- links: the script in the fragment, packed by the browser

function through(bytes, packer) {
  return new Response(new Blob([bytes]).stream().pipeThrough(packer));
}

async function pack(text) {
  const packed = await through(text, new CompressionStream("deflate-raw")).arrayBuffer();
  let binary = "";
  for (const byte of new Uint8Array(packed)) binary += String.fromCharCode(byte);
  return btoa(binary).replace(/\+/g, "-").replace(/\//g, "_").replace(/=+$/, "");
}

async function unpack(packed) {
  const binary = atob(packed.replace(/-/g, "+").replace(/_/g, "/"));
  const bytes = Uint8Array.from(binary, (c) => c.charCodeAt(0));
  return through(bytes, new DecompressionStream("deflate-raw")).text();
}

async function makeLink() {
  const script = $("script").value;
  const known = Object.keys(EXAMPLES).find((name) => EXAMPLES[name] === script);
  const what = known === undefined ? "script=" + (await pack(script)) : "example=" + known;
  const order = state.script.many ? "&order=" + orderNow() : "";
  history.replaceState(null, "", "#" + what + order);
  try {
    await navigator.clipboard.writeText(location.href);
    say("the link is copied", "good");
  } catch {
    say("the link stands in the address bar", "good");
  }
}

async function readLink() {
  const said = new URLSearchParams(location.hash.slice(1));
  const order = said.get("order") ?? "", script = said.get("script");
  if (/^\d{1,19}$/.test(order)) $("order").value = order;
  openExample(said.get("example") ?? Object.keys(EXAMPLES)[0]);
  if (script === null) return;
  try {
    $("script").value = await unpack(script);
    $("example").selectedIndex = -1;
  } catch {
    say("the link has no script that can be read", "bad");
  }
}

// ---- what is listened to

function showPasting() {
  state.pasting = !state.pasting;
  $("pasted").hidden = !state.pasting;
  $("checking").setAttribute("aria-expanded", String(state.pasting));
  if (state.pasting) $("other").focus();
  else run();
}

async function fillPasted() {
  const said = await ask("run", $("script").value);
  if (said === null) return;
  $("other").value = said.text;
  showState(said);
}

const REPORT_KEYS = {
  ArrowDown: (i) => i + 1,
  ArrowUp: (i) => i - 1,
  PageDown: (i) => i + 20,
  PageUp: (i) => i - 20,
  Home: () => 0,
  End: () => state.rows.length - 1,
};

const PICTURE_KEYS = {
  ArrowRight: (i) => nextCall(i, 1),
  ArrowLeft: (i) => nextCall(i, -1),
  Home: () => nextCall(-1, 1),
  End: () => nextCall(state.rows.length, -1),
};

function listen() {
  for (const name of Object.keys(EXAMPLES))
    $("example").add(new Option(name.replace(/_/g, " "), name));
  const on = (id, kind, what) => $(id).addEventListener(kind, what);
  on("example", "change", () => { openExample($("example").value); run(); });
  on("script", "input", later);
  on("script", "scroll", drawLines);
  on("script", "click", chooseLine);
  on("script", "keyup", (event) => { if (event.key.startsWith("Arrow")) chooseLine(); });
  on("order", "input", run);
  on("earlier", "click", () => stepOrder(-1));
  on("later", "click", () => stepOrder(1));
  on("link", "click", makeLink);
  on("checking", "click", showPasting);
  on("check", "click", check);
  on("fill", "click", fillPasted);
  on("report", "scroll", drawRows);
  on("report", "keydown", (event) => stepRow(event, REPORT_KEYS));
  on("scroller", "scroll", drawPicture);
  on("scroller", "keydown", (event) => stepRow(event, PICTURE_KEYS));
  addEventListener("resize", () => { drawLines(); drawRows(); drawPicture(); });
  addEventListener("hashchange", () => { readLink().then(run); });
  document.addEventListener("click", (event) => {
    const box = event.target.closest("[data-row]");
    if (box) choose(+box.dataset.row);
  });
}

listen();
openPage();
