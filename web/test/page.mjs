// The page in a browser: node page.mjs INDEX.html CHROMIUM [FOLDER for the pictures]
import path from "node:path";
import { pathToFileURL } from "node:url";
import { Browser } from "./browser.mjs";

const [index, program, pictures] = process.argv.slice(2);
const url = pathToFileURL(path.resolve(index)).href;
const browser = new Browser(program);
const $ = (id) => `document.getElementById("${id}")`;
const text = (id) => $(id) + ".textContent";
const DONE = `/^done/.test(${text("state")})`;
let failed = 0;

function expect(what, holds) {
  console.log((holds ? "ok   " : "FAIL ") + what);
  if (!holds) failed += 1;
}

async function example(page, name) {
  await page.change("example", name);
  await page.until(DONE);
}

async function shoot(page, name) {
  if (pictures !== undefined) await page.picture(path.join(pictures, name));
}

async function runs(page) {
  await page.until(DONE);
  const rows = await page.evaluate(text("rows"));
  expect("the first example runs", rows.includes("11 2.1 signal 7 2 -> delivered 1 8192"));
  const drawn = await page.evaluate(`document.querySelectorAll("#drawn .hit").length`);
  expect("its picture is drawn", drawn === 15);
}

async function faults(page) {
  await page.putCursor("script", "mapti", 3);
  await page.type("x");
  await page.until(`!${$("fault")}.hidden`);
  const said = await page.evaluate(text("fault"));
  expect("a fault is told as it is typed", said.startsWith("refused script 28 fields"));
  expect("with what may stand there", said.includes('"mapxti" is no command'));
  await page.evaluate(`${$("script")}.scrollTop = 19 * 20`);
  await page.until(`document.querySelector("#gutter .bad")?.textContent === "▸28"`);
  expect("and marked in its line", true);
  await shoot(page, "page_fault.png");
  await example(page, "moving_collections");
  await example(page, "first_lpi");
  expect("it is gone with it", await page.evaluate($("fault") + ".hidden"));
}

async function clicks(page) {
  const marked = `document.querySelector("#rows .on").textContent`;
  await page.clickOn(`#drawn .hit[data-row="12"]`);
  const row = await page.evaluate(marked);
  expect("a click in the picture marks the report", row.startsWith("11 2.1 signal 7 2"));
  const line = await page.evaluate(`document.querySelector("#gutter .on")?.textContent`);
  expect("and the script", line === "38");
  await page.clickOn("#row3");
  const column = await page.evaluate(`document.querySelector("#drawn .on").dataset.row`);
  expect("a click in the report marks the picture", column === "3");
  await page.evaluate($("report") + ".focus()");
  await page.key("ArrowDown");
  expect("an arrow goes on", (await page.evaluate(marked)).startsWith("3 1.1 write 0x0"));
  await page.putCursor("script", "take 1", 0);
  await page.evaluate($("script") + `.dispatchEvent(new Event("click"))`);
  const call = await page.evaluate(marked);
  expect("a line of the script marks its call", call.startsWith("13 2.1 take 1"));
}

async function orders(page) {
  await example(page, "taking_turns");
  expect("orders can be stepped", await page.evaluate(`!${$("orders")}.hidden`));
  const reports = new Set();
  for (let n = 0; n < 8; n++) {
    reports.add(await page.evaluate(text("rows")));
    await page.clickOn("#later");
    await page.until(DONE);
  }
  expect("and replies change with them, " + reports.size + " of 8", reports.size > 3);
}

async function checks(page) {
  await page.clickOn("#checking");
  await page.clickOn("#fill");
  await page.until($("other") + `.value.endsWith("done\\n")`);
  await page.clickOn("#check");
  await page.until(`/^agrees/.test(${text("state")})`);
  expect("a pasted report agrees", true);
  await page.evaluate(`(() => { const box = ${$("other")};
    box.value = box.value.replace("delivered 1 ", "delivered 0 "); })()`);
  await page.clickOn("#check");
  await page.until(`/^the report is that of no run/.test(${text("state")})`);
  const rows = await page.evaluate(text("rows"));
  expect("a wrong one doesn't, and its line is told", rows.startsWith("differs 1 "));
  await page.clickOn("#checking");
  await page.until(DONE);
}

async function shots(page) {
  await example(page, "taking_turns");
  await page.change("order", "3");
  await page.until(DONE);
  const sizes = [
    [1920, 1080, false, "page_wide.png"],
    [1024, 768, true, "page_dark.png"],
    [360, 780, false, "page_narrow.png"],
  ];
  for (const [width, height, dark, name] of sizes) {
    await page.size(width, height, dark);
    await page.frame();
    const fits = await page.evaluate("document.documentElement.scrollWidth <= innerWidth");
    expect(width + " pixels: nothing is wider than the page", fits);
    await page.evaluate(`[...document.querySelectorAll("#rows .row")]
      .find((box) => box.textContent.includes("-> delivered 1"))?.click()`);
    await page.evaluate("scrollTo(0, 0)");
    await page.frame();
    await shoot(page, name);
  }
  await page.size(1400, 900);
}

async function links(page) {
  const script = (await page.evaluate($("script") + ".value")) + "# another\n";
  await page.put("script", script);
  await page.clickOn("#link");
  await page.until(`location.hash.startsWith("#script=")`);
  const other = await browser.open(url + (await page.evaluate("location.hash")));
  await other.size(1400, 900);
  await other.until(DONE);
  const carried = await other.evaluate($("script") + ".value");
  expect("a link carries the script", carried === script);
  return other;
}

async function large(page) {
  const head = (await page.evaluate($("script") + ".value")).split("# ---- all at once")[0];
  const calls = "signal 7 2\ntake 0\n".repeat(32768), start = Date.now();
  const script = head + "phase\nthread\n" + calls + "end\n";
  await page.put("script", script);
  await page.until(text("state") + ` === "running"`);
  const asked = Date.now();
  await page.frame();
  const waited = Date.now() - asked;
  expect("the page can be used while the module works, after " + waited + " ms", waited < 5000);
  await page.until(`document.querySelector("#rows.many") !== null && ${DONE}`, 600);
  const said = await page.evaluate(text("state"));
  console.log(`     65,536 calls: ${said}, shown after ${Date.now() - start} ms`);
  await page.evaluate($("report") + ".scrollTop = 1e9");
  await page.until(text("rows") + `.includes("done")`);
  await page.evaluate($("scroller") + ".scrollLeft = 1e9");
  await page.until(`+document.querySelector("#drawn .hit")?.dataset.row > 60000`);
  const boxes = await page.evaluate(`document.getElementsByTagName("*").length`);
  expect("only what is seen is made, " + boxes + " elements", boxes < 3000);
  await page.put("script", script + "# again\n");
  await page.until(text("state") + ` === "running"`);
  await example(page, "first_lpi");
  const rows = await page.evaluate(text("rows"));
  expect("a later script takes its place", rows.includes("11 2.1 signal 7 2 -> delivered 1 8192"));
}

const OUTSIDE = "https://example.com/";

function watched(method, what) {
  return browser.events.filter((event) => event.method === method).map((event) => what(event.params));
}

try {
  const page = await browser.open(url);
  await page.size(1400, 900);
  await runs(page);
  await faults(page);
  await clicks(page);
  await orders(page);
  await checks(page);
  await shots(page);
  await large(await links(page));
  const kept = await page.evaluate(`fetch("${OUTSIDE}").then(() => false, () => true)`);
  expect("no request may leave the page", kept);
} catch (error) {
  expect("no step fails: " + error.stack, false);
}
const asked = watched("Network.requestWillBeSent", (params) => params.request.url);
const outside = asked.filter((one) => !/^(file|data|blob|about):/.test(one) && one !== OUTSIDE);
expect("none was tried but that one: " + JSON.stringify(outside), outside.length === 0);
const thrown = watched("Runtime.exceptionThrown", (params) => params.exceptionDetails.text);
expect("no exception: " + JSON.stringify(thrown), thrown.length === 0);
await browser.close();
process.exitCode = failed === 0 ? 0 : 1;
