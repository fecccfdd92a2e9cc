// A headless Chromium that is driven over a pipe, by the DevTools protocol.
import { spawn } from "node:child_process";
import fs from "node:fs";
import os from "node:os";
import path from "node:path";

const FLAGS = [
  "--headless=new",
  "--remote-debugging-pipe",
  "--no-sandbox",
  "--disable-gpu",
  "--no-first-run",
  "--disable-background-networking",
  "--disable-component-update",
  "--disable-sync",
];
// How many times longer than usual to wait, on a busy machine.
const PATIENCE = +(process.env.PATIENCE ?? 1);

export class Browser {
  constructor(program) {
    this.home = fs.mkdtempSync(path.join(os.tmpdir(), "its_page_"));
    const words = [...FLAGS, "--user-data-dir=" + this.home, "about:blank"];
    this.child = spawn(program, words, { stdio: ["ignore", "ignore", "ignore", "pipe", "pipe"] });
    this.next = 1;
    this.waiting = new Map();
    this.events = [];
    let left = "";
    this.child.stdio[4].on("data", (data) => {
      const parts = (left + data).split("\0");
      left = parts.pop();
      for (const part of parts) this.take(JSON.parse(part));
    });
  }

  take(message) {
    if (message.id === undefined) {
      this.events.push(message);
      return;
    }
    const { resolve, reject } = this.waiting.get(message.id);
    this.waiting.delete(message.id);
    if (message.error) reject(new Error(message.error.message));
    else resolve(message.result);
  }

  send(method, params = {}, sessionId = undefined) {
    const id = this.next++;
    this.child.stdio[3].write(JSON.stringify({ id, method, params, sessionId }) + "\0");
    return new Promise((resolve, reject) => this.waiting.set(id, { resolve, reject }));
  }

  async open(url) {
    const { targetId } = await this.send("Target.createTarget", { url: "about:blank" });
    const { sessionId } = await this.send("Target.attachToTarget", { targetId, flatten: true });
    const page = new Page(this, sessionId);
    for (const domain of ["Page", "Runtime", "Network"]) await page.send(domain + ".enable");
    await page.send("Page.navigate", { url });
    return page;
  }

  async close() {
    const ended = new Promise((resolve) => this.child.on("exit", resolve));
    await this.send("Browser.close").catch(() => {});
    await ended;
    fs.rmSync(this.home, { recursive: true, force: true });
  }
}

class Page {
  constructor(browser, session) {
    this.browser = browser;
    this.session = session;
  }

  send(method, params) {
    return this.browser.send(method, params, this.session);
  }

  // What an expression comes to in the page, once its promise is kept.
  async evaluate(expression) {
    const asked = { expression, awaitPromise: true, returnByValue: true };
    const { result, exceptionDetails } = await this.send("Runtime.evaluate", asked);
    if (exceptionDetails) throw new Error(exceptionDetails.exception?.description ?? expression);
    return result.value;
  }

  // Waits until an expression is true.
  async until(expression, seconds = 60) {
    const end = Date.now() + 1000 * PATIENCE * seconds;
    while (!(await this.evaluate(expression).catch(() => false))) {
      if (Date.now() > end) throw new Error("never came: " + expression);
      await new Promise((resolve) => setTimeout(resolve, 50));
    }
  }

  // Waits until what was changed is shown.
  frame() {
    return this.evaluate(
      "new Promise((done) => requestAnimationFrame(() => requestAnimationFrame(done)))",
    );
  }

  async click(x, y) {
    const at = { x, y, button: "left", clickCount: 1 };
    for (const type of ["mousePressed", "mouseReleased"])
      await this.send("Input.dispatchMouseEvent", { type, ...at });
  }

  async clickOn(selector) {
    const { x, y } = await this.evaluate(`(() => {
      const box = document.querySelector(${JSON.stringify(selector)});
      box.scrollIntoView({ block: "nearest", inline: "nearest" });
      const { left, top, width, height } = box.getBoundingClientRect();
      return { x: left + width / 2, y: top + height / 2 };
    })()`);
    await this.click(x, y);
  }

  type(text) {
    return this.send("Input.insertText", { text });
  }

  async key(key) {
    for (const type of ["keyDown", "keyUp"])
      await this.send("Input.dispatchKeyEvent", { type, key, code: key });
  }

  set(id, value, event) {
    return this.evaluate(`(() => {
      const box = document.getElementById("${id}");
      box.value = ${JSON.stringify(value)};
      box.dispatchEvent(new Event("${event}"));
    })()`);
  }

  put(id, value) {
    return this.set(id, value, "input");
  }

  async change(id, value) {
    await this.set(id, value, "input");
    await this.set(id, value, "change");
  }

  // Puts the cursor so far behind the beginning of a word.
  putCursor(id, word, behind) {
    return this.evaluate(`(() => {
      const box = document.getElementById("${id}");
      const at = box.value.indexOf(${JSON.stringify(word)}) + ${behind};
      box.focus();
      box.setSelectionRange(at, at);
    })()`);
  }

  async size(width, height, dark = false) {
    const scheme = { name: "prefers-color-scheme", value: dark ? "dark" : "light" };
    const size = { width, height, deviceScaleFactor: 1, mobile: width < 600 };
    await this.send("Emulation.setDeviceMetricsOverride", size);
    await this.send("Emulation.setEmulatedMedia", { features: [scheme] });
  }

  async picture(file) {
    const { data } = await this.send("Page.captureScreenshot", { format: "png" });
    fs.writeFileSync(file, Buffer.from(data, "base64"));
  }
}
