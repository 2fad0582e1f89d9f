// node tests/explorer/browser.mjs CHROMIUM [PICTURE]: docs/explorer.html in headless Chromium, opened as a file. Loads
// without an error and without a request; every script plays to its end; a bad script shows rehearse's own message;
// events by clicks and by keys alone, each control reached by the Tab key; files, links and looks. What stands in the
// page must be what rehearse prints. With PICTURE the screenshot of README is written there. Chromium is spoken to over
// its debugging pipe.
import assert from "node:assert/strict";
import fs from "node:fs";
import os from "node:os";
import path from "node:path";
import { spawn, spawnSync } from "node:child_process";
import { pathToFileURL } from "node:url";

const [program, picture] = process.argv.slice(2);
const profile = fs.mkdtempSync(path.join(os.tmpdir(), "explorer-"));
const words = [
  "--headless=new", "--disable-gpu", "--no-first-run", "--hide-scrollbars", "--remote-debugging-pipe",
  `--user-data-dir=${profile}`, ...(process.getuid() === 0 ? ["--no-sandbox"] : []), "about:blank",
];
const chromium = spawn(program, words, { stdio: ["ignore", "ignore", "ignore", "pipe", "pipe"] });
const waiting = new Map(), requests = [], troubles = [];
let number = 0, rest = "", session;
const after = (milliseconds) => new Promise((done) => setTimeout(done, milliseconds));

chromium.stdio[4].setEncoding("utf8").on("data", (text) => {
  const parts = (rest + text).split("\0");
  rest = parts.pop();
  for (const { id, method, params, ...answer } of parts.map((part) => JSON.parse(part))) {
    if (id) waiting.get(id)(answer);
    if (method === "Network.requestWillBeSent") requests.push(params.request.url);
    const thrown = method === "Runtime.exceptionThrown" && params.exceptionDetails;
    if (thrown) troubles.push(thrown.exception?.description ?? "an exception");
    if (method === "Log.entryAdded") troubles.push(params.entry.text);
  }
});
const ask = (method, params = {}, sessionId = session) => new Promise((resolve, reject) => {
  waiting.set(++number, ({ error, result }) => {
    if (error) reject(new Error(`${method}: ${error.message}`));
    else resolve(result);
  });
  chromium.stdio[3].write(JSON.stringify({ id: number, method, params, sessionId }) + "\0");
});

// ---- What a person does

async function inPage(code) {
  const params = { expression: code, awaitPromise: true, returnByValue: true };
  const { result, exceptionDetails } = await ask("Runtime.evaluate", params);
  if (exceptionDetails) throw new Error(exceptionDetails.exception?.description ?? exceptionDetails.text);
  return result.value;
}
const text = (id) => inPage(`document.getElementById("${id}").textContent`);
const value = (id) => inPage(`document.getElementById("${id}").value`);

// A click of the mouse in the middle of an element.
async function click(selector) {
  const at = await inPage(`(() => {
    const e = document.querySelector(${JSON.stringify(selector)});
    e.scrollIntoView({ block: "center" });
    const r = e.getBoundingClientRect();
    return { x: r.x + r.width / 2, y: r.y + r.height / 2 };
  })()`);
  for (const type of ["mousePressed", "mouseReleased"])
    await ask("Input.dispatchMouseEvent", { type, ...at, button: "left", clickCount: 1 });
}

const KEYS = { Tab: 9, Enter: 13, ArrowLeft: 37, ArrowRight: 39, Home: 36, End: 35 };
async function press(key) {
  const typed = key === "Enter" ? { text: "\r" } : key.length === 1 ? { text: key } : {};
  const about = { key, code: key, windowsVirtualKeyCode: KEYS[key] ?? key.charCodeAt(0), ...typed };
  for (const type of ["keyDown", "keyUp"]) await ask("Input.dispatchKeyEvent", { type, ...about });
}

async function choose(id, entry) {
  await inPage(`{
    const e = document.getElementById("${id}");
    e.value = ${JSON.stringify(String(entry))};
    e.dispatchEvent(new Event("change"));
  }`);
}

async function goTo(hash) {
  await inPage(`location.hash = "${hash}"; new Promise((done) => setTimeout(done, 60))`);
}

// The page anew, at a moment.
async function open(hash) {
  await ask("Page.navigate", { url: "about:blank" });
  await ask("Page.navigate", { url: pathToFileURL("docs/explorer.html").href + hash });
  await inPage(`new Promise((done) => {
    const look = () => (document.body?.dataset.ready ? done() : setTimeout(look, 20));
    look();
  })`);
}

const rehearse = (script) => spawnSync("target/bin/rehearse", { input: script }).stdout.toString();

// The page against rehearse, on the script that stands in it.
async function same(what) {
  assert.equal(await text("printed"), rehearse(await value("script")), what);
  assert.match(await text("same"), /is the same/, what);
}

// ---- The tests

async function scripts() {
  for (const name of fs.readdirSync("scripts").filter((entry) => entry !== "printed")) {
    const script = fs.readFileSync(`scripts/${name}`, "utf8"), events = script.split("\n").length - 2;
    await choose("preset", name);
    assert.equal(await text("printed"), fs.readFileSync(`scripts/printed/${name}`, "utf8"), name);
    assert.equal(await value("script"), script, name);
    assert.equal(await text("count"), `${events} of ${events} events`, name);
    await same(name);
  }
}

// scripts/worked by clicks alone; back, something else in its place, a refused event.
async function clicks() {
  const worked = fs.readFileSync("scripts/worked", "utf8");
  await choose("size", 2);
  await click("#anew");
  for (const line of worked.trim().split("\n").slice(1)) await click("#" + line.replaceAll(" ", "-"));
  assert.equal(await value("script"), worked);
  await same("worked, by clicks");
  await click("#back");
  await click("#back");
  await click("#s-0");
  await same("after two steps back");
  await click("#first");
  await click("#i-0");
  await click("#t-0");
  await same("a refused event");
  assert.match(await text("said"), /Refused with 4, resting/);
}

// Each size and each kind of links: work, then the cycle to its end.
async function ends() {
  for (let size = 1; size <= 16; size++) {
    await choose("size", size);
    await click("#anew");
    await choose("speed", ["fast", "slow", "random"][size % 3]);
    if (size > 1) await click(`#s-${size - 1}`);
    if (size > 1) await click(`#slow-${size - 1}-0`);
    await click("#end");
    await same(`a board of ${size}`);
    const left = (await text("printed")).match(/^\d+ 23 /gm).length;
    assert.equal(left, size, `all nodes of a board of ${size} have left`);
    if (size > 1) await click(`#quick-${size - 1}-0`);
  }
}

async function badScripts() {
  const bad = [
    ["nodes 3\ni 0\nx\n", "stop 17 at line 3"],
    ["nodes 17\n", "stop 1 at line 1"],
    ["", "stop 17 at line 1"],
    ["nodes 2\n" + "i 0\n".repeat(1100), "stop 17 at line 0"],
  ];
  for (const [script, message] of bad) {
    await inPage(`document.getElementById("script").value = ${JSON.stringify(script)}`);
    await click("#play");
    assert.equal(await text("printed"), rehearse(script));
    assert.match(await text("said"), new RegExp(`rehearse says: ${message}`));
    assert.match(await text("same"), /is the same/);
  }
  await choose("size", 3);
  await click("#anew");
  assert.doesNotMatch(await text("said"), /rehearse says/);
}

async function files() {
  const script = "nodes 2\ni 0\nb 0\nb 0\n";
  await inPage(`(() => {
    const list = new DataTransfer(), e = document.getElementById("load");
    list.items.add(new File([${JSON.stringify(script)}], "x"));
    e.files = list.files;
    e.dispatchEvent(new Event("change"));
    return new Promise((done) => setTimeout(done, 150));
  })()`);
  assert.equal(await text("printed"), rehearse(script));
  const step = "pass 1, dimension 0", said = `0 waits in ${step}: clause 0.*no frame of ${step} has come from node 1`;
  assert.match(await text("said"), new RegExp(said));
  await ask("Browser.setDownloadBehavior", { behavior: "allow", downloadPath: profile }, undefined);
  await click("#save");
  const saved = path.join(profile, "board_of_2.txt");
  for (let i = 0; i < 100 && !fs.existsSync(saved); i++) await after(50);
  assert.equal(fs.readFileSync(saved, "utf8"), script);
}

// Every control is reached by Tab, in a board of three with something under way.
async function tabs() {
  await goTo("nodes.3,s.0.1,i.0,b.0");
  await inPage("document.activeElement.blur(); window.scrollTo(0, 0)");
  const controls = await inPage(`(() => {
    const all = [...document.querySelectorAll("button, select, input, textarea, summary, a[href], [tabindex]")];
    const usable = all.filter((e) => !e.disabled && e.checkVisibility());
    for (const e of usable) e.dataset.control = e.id || e.tagName;
    return usable.map((e) => e.dataset.control);
  })()`);
  const reached = new Set();
  for (let i = 0; i < controls.length + 5; i++) {
    await press("Tab");
    reached.add(await inPage("document.activeElement.dataset.control ?? ''"));
  }
  assert.deepEqual(controls.filter((control) => !reached.has(control)), [], "controls that Tab does not reach");
}

// A cycle by keys alone.
async function keyboard() {
  const worked = fs.readFileSync("scripts/worked", "utf8");
  const focus = (id) => inPage(`document.getElementById("${id}").focus()`);
  await goTo("nodes.2");
  for (const line of worked.trim().split("\n").slice(1)) {
    await focus(line.replaceAll(" ", "-"));
    await press("Enter");
    assert.notEqual(await inPage("document.activeElement.tagName"), "BODY", "the focus is kept");
  }
  assert.equal(await value("script"), worked);
  await inPage("document.activeElement.blur()");
  await press("ArrowLeft");
  await press("ArrowLeft");
  assert.match(await text("count"), /^12 of 14/);
  await press("Home");
  assert.match(await text("count"), /^0 of 14/);
  await press("ArrowRight");
  await press("End");
  assert.match(await text("count"), /^14 of 14/);
  await focus("event");
  for (const letter of "s 1 0") await press(letter);
  await press("Enter");
  assert.match(await text("said"), /1 sends a job to 0/);
  await same("by keys");
}

async function addresses() {
  await goTo("rollback_of_five:42");
  assert.match(await text("said"), /The job of line 2 reaches 0, which is busy and falls back to pass 1, dimension 0/);
  await goTo("rollback_of_five:40");
  const clause = "Clause 2: the other side has sent this one 1, and this side has taken 0\\.";
  const sides = "This side is 0 to 2, the other is 3 and 4, by the frame of 3";
  assert.match(await text("said"), new RegExp(`${clause} ${sides}`));
  assert.match(await inPage("location.href"), /#rollback_of_five:40$/);
  await click("#i-2");
  const link = await inPage("location.hash");
  assert.match(link, /^#nodes\.5,s\.4\.0,.*,i\.2$/);
  const script = await value("script");
  await goTo("worked");
  await goTo(link.slice(1));
  assert.equal(await value("script"), script);
  await click("#back");
  assert.equal(await inPage("location.hash"), `${link}:40`, "a moment of a script that has no name");
  await goTo("worked");
  await goTo(`${link.slice(1)}:40`);
  assert.match(await text("count"), /^39 of 40/);
  await click("#copy");
  for (let i = 0; i < 40 && (await text("copied")) === ""; i++) await after(50);
  assert.match(await text("copied"), /Copied|address bar/);
}

// The page says so where it shows something else than rehearse prints, and a run goes on by itself.
async function others() {
  await goTo("nodes.2,i.0,b.0,b.0");
  await inPage(`{
    const own = rehearse;
    rehearse = (bytes) => own(bytes).replace("0 21 ", "0 22 ");
    draw();
    rehearse = own;
    draw;
  }`);
  assert.match(await text("same"), /do not trust it/);
  await goTo("worked");
  await click("#run");
  assert.match(await text("count"), /^0 of 14/);
  await after(1100);
  assert.match(await text("count"), /^1 of 14/);
  await click("#run");
  for (const [id, entry] of [["colours", "dark"], ["text-size", 26]]) await choose(id, entry);
  const looks = await inPage("[document.documentElement.dataset.colours, getComputedStyle(document.body).fontSize]");
  assert.deepEqual(looks, ["dark", "26px"]);
  for (const [id, entry] of [["colours", "light"], ["text-size", 16]]) await choose(id, entry);
}

async function screenshot(file, width, height) {
  await ask("Emulation.setDeviceMetricsOverride", { width, height, deviceScaleFactor: 1, mobile: false });
  await inPage("window.scrollTo(0, 0)");
  const { data } = await ask("Page.captureScreenshot", { format: "png" });
  fs.writeFileSync(file, Buffer.from(data, "base64"));
}

async function main() {
  const { targetId } = await ask("Target.createTarget", { url: "about:blank" }, undefined);
  session = (await ask("Target.attachToTarget", { targetId, flatten: true }, undefined)).sessionId;
  for (const domain of ["Page", "Runtime", "Network", "Log"]) await ask(`${domain}.enable`);
  await ask("Emulation.setDeviceMetricsOverride", { width: 1280, height: 1000, deviceScaleFactor: 1, mobile: false });
  await open("#nodes.17");
  assert.match(await text("said"), /A board of 5 has started.*rehearse says: stop 1 at line 1/);
  await open("");
  for (const part of [scripts, clicks, ends, badScripts, files, tabs, keyboard, addresses, others]) await part();
  if (picture) {
    await open("#rollback_of_five:41");
    await screenshot(picture, 1280, 1250);
  }
  assert.deepEqual(troubles, []);
  const isOwn = (url) => url.startsWith("file:") || url.startsWith("blob:");
  assert.deepEqual([...new Set(requests)].filter((url) => !isOwn(url)), []);
  const { product } = await ask("Browser.getVersion", {}, undefined);
  console.log(`explorer in ${product}: every script, boards of 1 to 16 by clicks, bad scripts, files, keys, addresses;`
    + " all as rehearse prints it, no request");
}

const limit = setTimeout(() => chromium.kill("SIGKILL"), 240000);
chromium.once("exit", () => {
  for (const answer of waiting.values()) answer({ error: { message: "Chromium has ended" } });
});
try {
  await main();
} catch (error) {
  console.error(error.message, troubles);
  process.exitCode = 1;
}
clearTimeout(limit);
await Promise.race([ask("Browser.close", {}, undefined), after(3000)]).catch(() => {});
const runs = chromium.exitCode === null && chromium.signalCode === null;
await new Promise((done) => (runs ? chromium.once("exit", done) : done()));
fs.rmSync(profile, { recursive: true, force: true, maxRetries: 5 });
