// Every example and variation through the module, against the program `its`: node native.mjs MODULE.wasm ITS EXAMPLES...
import { spawnSync } from "node:child_process";
import fs from "node:fs";
import path from "node:path";
import { fileURLToPath } from "node:url";

const [module, program, ...folders] = process.argv.slice(2);
const source = path.join(path.dirname(fileURLToPath(import.meta.url)), "../src/");
const load = (name, what) => new Function(fs.readFileSync(source + name, "utf8") + "; return " + what + ";")();
const openModule = load("module.js", "openModule");
const readScript = load("report.js", "readScript");
const ORDERS = ["0", "1", "2", "3", "4", "5", "6", "7", "1000000007", "18446744073709551615"];

function native(verb, input) {
  const ran = spawnSync(program, [verb], { input, encoding: "utf8", maxBuffer: 1 << 28 });
  return { status: ran.status, text: ran.stdout };
}

let failed = 0, cases = 0;
function same(name, what, got, wanted) {
  cases += 1;
  if (got.status === wanted.status && got.text === wanted.text) return;
  failed += 1;
  console.log(`${name}: ${what}: status ${got.status}, wanted ${wanted.status}; text ${got.text === wanted.text ? "the same" : "another"}`);
}

const its = await openModule(await WebAssembly.compile(fs.readFileSync(module)));
const files = folders.flatMap((folder) => fs.readdirSync(folder).filter((name) => name.endsWith(".its")).map((name) => path.join(folder, name)));
for (const file of files) {
  const script = fs.readFileSync(file, "utf8"), name = path.basename(file);
  if (!readScript(script).many) {
    for (const verb of ["run", "explain", "check"]) same(name, verb, its(verb, script), native(verb, script));
    const ran = its("run", script);
    if (ran.status === 0) same(name, "check of the report", its("check", script + "trace\n" + ran.text), { status: 0, text: "agrees\n" });
    continue;
  }
  const reports = new Set();
  for (const order of ORDERS) {
    const ran = its("run", script, order);
    if (ran.status !== 0) { same(name, "status of order " + order, ran, { ...native("run", script), text: ran.text }); continue; }
    reports.add(ran.text);
    const input = script + "trace\n" + ran.text;
    same(name, "`its check` of order " + order, native("check", input), { status: 0, text: "agrees\n" });
    same(name, "check of order " + order, its("check", input), { status: 0, text: "agrees\n" });
    same(name, "explanation of order " + order, its("explain", input), native("explain", input));
  }
  console.log(`${name}: ${reports.size} reports of ${ORDERS.length} orders`);
}

// A report with a reply changed is that of no run, and both say the same of it.
const script = fs.readFileSync(files.find((file) => file.endsWith("first_lpi.its")), "utf8");
const wrong = script + "trace\n" + its("run", script).text.replace("delivered 1 8192", "delivered 0 8192");
same("first_lpi", "check of a wrong report", its("check", wrong), native("check", wrong));
same("first_lpi", "explanation of a wrong report", its("explain", wrong), native("explain", wrong));
same("no input", "run", its("run", ""), native("run", ""));
same("no input", "check", its("check", ""), native("check", ""));
console.log(`${files.length} scripts, ${cases} answers compared, ${failed} differ`);
process.exitCode = failed === 0 ? 0 : 1;
