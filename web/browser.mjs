// A browser without a window, driven over two pipes by its own protocol; no library.
import { spawn } from "node:child_process";
import { mkdtempSync, rmSync } from "node:fs";
import { tmpdir } from "node:os";
import { join } from "node:path";

export class Browser {
  constructor(program) {
    this.folder = mkdtempSync(join(tmpdir(), "px8-"));
    // as root there is no sandbox; the page is our own
    const words = ["--headless=new", "--no-sandbox", "--disable-gpu", "--remote-debugging-pipe", `--user-data-dir=${this.folder}`];
    this.process = spawn(program, words, { stdio: ["ignore", "ignore", "ignore", "pipe", "pipe"] });
    this.failed = new Promise((_, refuse) => this.process.on("error", refuse));
    this.failed.catch(() => {});
    this.waiting = new Map();
    this.heard = [];
    this.last = 0;
    let rest = Buffer.alloc(0);
    this.process.stdio[4].on("data", (part) => {
      rest = Buffer.concat([rest, part]);
      for (let end; (end = rest.indexOf(0)) >= 0; rest = rest.subarray(end + 1)) this.hear(JSON.parse(rest.subarray(0, end)));
    });
  }

  hear(said) {
    if (!said.id) return this.heard.push(said);
    const { keep, refuse } = this.waiting.get(said.id);
    this.waiting.delete(said.id);
    if (said.error) refuse(new Error(said.error.message));
    else keep(said.result);
  }

  ask(method, params = {}, sessionId) {
    const id = ++this.last;
    const answer = new Promise((keep, refuse) => this.waiting.set(id, { keep, refuse }));
    this.process.stdio[3].write(`${JSON.stringify({ id, method, params, sessionId })}\0`);
    return Promise.race([answer, this.failed]);
  }

  // A page at an address, loaded.
  async page(address) {
    const { targetId } = await this.ask("Target.createTarget", { url: "about:blank" });
    const { sessionId } = await this.ask("Target.attachToTarget", { targetId, flatten: true });
    const page = new Tab(this, sessionId);
    for (const part of ["Page", "Network", "Runtime"]) await page.ask(`${part}.enable`);
    await page.go(address);
    return page;
  }

  async end() {
    await this.ask("Browser.close").catch(() => {});
    await new Promise((done) => (this.process.exitCode === null ? this.process.on("exit", done) : done()));
    rmSync(this.folder, { recursive: true, force: true });
  }
}

class Tab {
  constructor(browser, session) {
    Object.assign(this, { browser, session });
  }
  ask(method, params) {
    return this.browser.ask(method, params, this.session);
  }
  async go(address) {
    await this.ask("Page.navigate", { url: address });
    await this.until("document.readyState === 'complete' && (window.page || !document.getElementById('trouble').hidden)");
  }
  // What an expression of the page gives.
  async value(expression) {
    const { result, exceptionDetails } = await this.ask("Runtime.evaluate", { expression, awaitPromise: true, returnByValue: true });
    if (exceptionDetails) throw new Error(`${expression.slice(0, 60)}: ${exceptionDetails.exception?.description ?? exceptionDetails.text}`);
    return result.value;
  }
  async until(expression, seconds = 60) {
    for (const end = Date.now() + 1000 * seconds; Date.now() < end; ) {
      if (await this.value(`Boolean(${expression})`).catch(() => false)) return;
      await new Promise((done) => setTimeout(done, 20));
    }
    throw new Error(`never came: ${expression}`);
  }
  text(id) {
    return this.value(`document.getElementById("${id}").textContent`);
  }
  // By keyboard: a key by its name, and text as it is typed.
  async key(key, modifiers = 0) {
    const codes = { Tab: 9, Enter: 13, " ": 32 };
    const word = { key, code: key === " " ? "Space" : key, windowsVirtualKeyCode: codes[key], modifiers };
    if (key === "Enter") word.text = "\r";
    if (key === " ") word.text = " ";
    await this.ask("Input.dispatchKeyEvent", { type: "keyDown", ...word });
    await this.ask("Input.dispatchKeyEvent", { type: "keyUp", ...word });
  }
  type(text) {
    return this.ask("Input.insertText", { text });
  }
  async picture({ width, height, dark = false, phone = false }) {
    // a page behind another is not drawn
    await this.ask("Page.bringToFront");
    await this.ask("Emulation.setEmulatedMedia", { features: [{ name: "prefers-color-scheme", value: dark ? "dark" : "light" }] });
    await this.ask("Emulation.setDeviceMetricsOverride", { width, height, deviceScaleFactor: phone ? 2 : 1, mobile: phone });
    await new Promise((done) => setTimeout(done, 300));
    const { data } = await this.ask("Page.captureScreenshot", { format: "png" });
    return Buffer.from(data, "base64");
  }
}
