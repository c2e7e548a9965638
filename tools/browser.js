"use strict";
// A small client of Chromium's debugging protocol, over its pipe: no package, no port. What the tools for the page share.
const { spawn, execFileSync } = require("child_process");
const fs = require("fs");
const os = require("os");
const path = require("path");

const NAMES = ["chromium", "chromium-browser", "google-chrome"];

// the browser's path, or null
function found() {
  for (const name of NAMES) {
    try { return execFileSync("sh", ["-c", `command -v ${name}`]).toString().trim(); } catch { /* the next one */ }
  }
  return null;
}

// { page(url, width, height), close() }
function openBrowser() {
  const home = fs.mkdtempSync(path.join(os.tmpdir(), "page-"));
  const words = ["--headless=new", "--remote-debugging-pipe", "--no-sandbox", "--disable-gpu", "--disable-dev-shm-usage", "--no-first-run", "--disable-background-networking", "--mute-audio", "--hide-scrollbars", `--user-data-dir=${home}`];
  const child = spawn(found(), words, { stdio: ["ignore", "ignore", "ignore", "pipe", "pipe"] });
  const waiting = new Map(), listeners = [];
  let last = 0, rest = "";
  child.stdio[4].setEncoding("utf8");
  child.stdio[4].on("data", (part) => {
    const messages = (rest + part).split("\0");
    rest = messages.pop();
    for (const message of messages.map((text) => JSON.parse(text))) {
      const call = waiting.get(message.id);
      waiting.delete(message.id);
      if (call) { if (message.error) call.reject(new Error(`${call.method}: ${message.error.message}`)); else call.resolve(message.result); } else for (const listener of listeners) listener(message);
    }
  });
  child.on("exit", () => { for (const call of waiting.values()) call.reject(new Error("the browser ended")); });

  function send(method, params = {}, sessionId = undefined) {
    return new Promise((resolve, reject) => {
      last += 1;
      waiting.set(last, { method, resolve, reject });
      child.stdio[3].write(`${JSON.stringify({ id: last, method, params, sessionId })}\0`);
    });
  }

  async function page(url, width, height) {
    const { targetId } = await send("Target.createTarget", { url: "about:blank" });
    const { sessionId } = await send("Target.attachToTarget", { targetId, flatten: true });
    const own = (method, params) => send(method, params, sessionId);
    const faults = [], asked = [];
    listeners.push((message) => {
      if (message.sessionId !== sessionId) return;
      if (message.method === "Runtime.exceptionThrown") faults.push(message.params.exceptionDetails.exception?.description || message.params.exceptionDetails.text);
      if (message.method === "Log.entryAdded" && message.params.entry.level === "error") faults.push(message.params.entry.text);
      if (message.method === "Network.requestWillBeSent") asked.push(message.params.request.url);
    });
    await Promise.all(["Page", "Runtime", "Log", "Network", "DOM"].map((domain) => own(`${domain}.enable`)));
    const size = (w, h, touch = false) => own("Emulation.setDeviceMetricsOverride", { width: w, height: h, deviceScaleFactor: 1, mobile: touch });
    await size(width, height);
    await own("Page.navigate", { url });

    async function evaluate(expression) {
      const { result, exceptionDetails } = await own("Runtime.evaluate", { expression, awaitPromise: true, returnByValue: true });
      if (exceptionDetails) throw new Error(exceptionDetails.exception?.description || exceptionDetails.text);
      return result.value;
    }

    // waits until an expression holds
    async function until(expression, what = expression) {
      for (let turns = 0; turns < 200; turns++) {
        if (await evaluate(`Boolean(${expression})`).catch(() => false)) return;
        await new Promise((resolve) => { setTimeout(resolve, 25); });
      }
      throw new Error(`not so within five seconds: ${what}`);
    }

    const press = async (key, code, modifiers = 0) => { for (const type of ["keyDown", "keyUp"]) await own("Input.dispatchKeyEvent", { type, key, code: key, windowsVirtualKeyCode: code, modifiers, text: key === "Enter" && !modifiers && type === "keyDown" ? "\r" : undefined }); };
    // a real click or tap, in the middle of an element
    async function click(selector) {
      const at = await evaluate(`(() => { const e = document.querySelector(${JSON.stringify(selector)}); e.scrollIntoView({ block: "nearest" }); const b = e.getBoundingClientRect(); return [b.x + b.width / 2, b.y + b.height / 2, document.elementFromPoint(b.x + b.width / 2, b.y + b.height / 2)?.closest(${JSON.stringify(selector)}) === e]; })()`);
      if (!at[2]) throw new Error(`${selector} is covered by something else`);
      for (const type of ["mousePressed", "mouseReleased"]) await own("Input.dispatchMouseEvent", { type, x: at[0], y: at[1], button: "left", clickCount: 1 });
    }
    const type = (text) => own("Input.insertText", { text });
    const picture = async (file) => fs.writeFileSync(file, Buffer.from((await own("Page.captureScreenshot", { format: "png" })).data, "base64"));
    return { own, size, evaluate, until, press, click, type, picture, faults, asked };
  }

  return {
    page,
    close() { return new Promise((resolve) => { child.on("exit", () => { fs.rmSync(home, { recursive: true, force: true, maxRetries: 5 }); resolve(); }); send("Browser.close").catch(() => {}); }); },
  };
}

module.exports = { found, openBrowser };
