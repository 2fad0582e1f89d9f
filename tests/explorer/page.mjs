// node tests/explorer/page.mjs MODEL: the code of docs/explorer.html without a browser, as it stands there. MODEL is
// the program that prints what the plain model makes of a script on its standard input.
//
// Every script of the repository, bad input and random scripts: what the page prints and what its rehearse prints must
// be the same, byte for byte, as scripts/printed or the model has it. Frames have the sums that the page shows, a wait
// names the first of the page's clauses that fails, a cycle is played to its end with every kind of links, and
// addresses hold what they are made of. Writes what it says of each event of the scripts to target/explorer/words.json,
// for tests/explorer/words.py.
import assert from "node:assert/strict";
import fs from "node:fs";
import vm from "node:vm";
import { spawnSync } from "node:child_process";

const model = process.argv[2];
const text = fs.readFileSync("docs/explorer.html", "utf8");
const code = text.match(/<script id="code">\n(.*?)<\/script>/s)[1];
const wanted = [
  "DATA", "OCB", "FIELDS", "started",
  "stagesOf", "printedOf", "printedLine", "scriptOf", "lineOf", "played", "opening", "stateOf", "sumsOf", "clausesOf",
  "drawing", "toTheEnd", "addressOf", "momentOf",
  "eventWords", "moreWords", "shortWords", "chartOf", "partnersOf", "legend",
];
const page = vm.runInThisContext(`${code}\n;({ ${wanted.join(", ")} })`);
const { OCB, FIELDS, DATA } = page;
const [library, rehearse] = await page.started();
const counts = { scripts: 0, bad: 0, random: 0, ended: 0, lines: 0, waits: 0, frames: 0 };

// What the model prints for scripts, each ended by a NUL, with a NUL behind each.
function modelled(scripts) {
  const input = scripts.map((script) => script + "\0").join("");
  const done = spawnSync(model, { input, maxBuffer: 1 << 28 });
  assert.equal(done.status, 0, "the model ends well");
  const found = done.stdout.toString("latin1").split("\0");
  assert.equal(found.length, scripts.length + 1);
  return found;
}

// The sums and the clauses that the page shows are those of the library.
function holdNumbers({ event }) {
  if (event.frame !== null) {
    const own = page.sumsOf(page.stateOf(event.before));
    const { fields } = event.frame, k = fields[FIELDS.dimension];
    const shells = (at) => Array.from(fields.slice(at + k, at + own.sent.length));
    assert.equal(fields[FIELDS.totalSent], own.totalSent, event.text);
    if (fields[FIELDS.pass] === 1) {
      assert.equal(fields[FIELDS.totalTaken], own.totalTaken);
      assert.deepEqual(shells(FIELDS.shells), own.sent.slice(k));
      assert.deepEqual(shells(FIELDS.shells + OCB.OCB_SHELLS), own.taken.slice(k));
    }
    counts.frames++;
  }
  if (event.answer === OCB.OCB_WAITS) {
    const clauses = page.clausesOf(page.stateOf(event.after)), fails = ([, , one, , other]) => one !== other;
    assert.equal(event.clause, clauses.length === 0 ? 0 : clauses.find(fails)[0], event.text);
    counts.waits++;
  }
}

function hold(kind, script, printed) {
  const bytes = Buffer.from(script, "latin1"), result = page.stagesOf(library, bytes);
  assert.equal(page.printedOf(result), printed, `the page: ${JSON.stringify(script)}`);
  assert.equal(rehearse(bytes), printed, `rehearse in the page: ${JSON.stringify(script)}`);
  for (const stage of result.stages.slice(1)) holdNumbers(stage);
  counts[kind]++;
  counts.lines += printed.split("\n").length - 1;
  return result;
}

// ---- The scripts of the repository

const words = {};
const isPicture = (part) => part.startsWith("<svg") && !/NaN|undefined|null/.test(part);
const onDisk = fs.readdirSync("scripts").filter((name) => name !== "printed");
assert.deepEqual(Object.keys(DATA.scripts).sort(), onDisk.sort());
for (const [name, script] of Object.entries(DATA.scripts)) {
  assert.equal(script, fs.readFileSync(`scripts/${name}`, "latin1"), name);
  const { stages } = hold("scripts", script, fs.readFileSync(`scripts/printed/${name}`, "latin1"));
  assert.equal(page.scriptOf(stages), script, `${name} is written back`);
  words[name] = stages.slice(1).map(({ event }) => [event.line, page.eventWords(event), page.shortWords(event)]);
  for (const stage of stages) {
    if (stage.event !== null) assert.equal(typeof page.moreWords(library, stage, stage.event), "string");
    assert.match(page.partnersOf(library, stage), /^<svg/);
  }
  for (const first of [2, Math.max(2, stages.length - 20)])
    assert.ok(page.chartOf(stages, first).every(isPicture), name);
}
fs.mkdirSync("target/explorer", { recursive: true });
fs.writeFileSync("target/explorer/words.json", JSON.stringify(words));

// ---- Bad and bordering input

const idles = (count) => "i 0\n".repeat(count);
const every = String.fromCharCode(...Array.from({ length: 255 }, (_, i) => i + 1));
const bad = [
  "", "nodes 2\n" + idles(14998), every, "nodes 2\n" + every, "nodes 1\n" + idles(1022), "nodes 10\n" + idles(1022),
  "nodes 2", "nodes 2\ni 0", "nodes 2\r\n", "nodes 2\n\n", "nodes 02\n", "nodes 2\ni  0\n",
  "nodes 2\ns 0 2\n", "nodes 2\nt 0 2\n", "nodes 2\nt 0 0\n",
  "nodes 0\n", "nodes 17\n", "nodes 16\n", "nodes 256\n", "nodes 1000\n", "nodes 2\nnodes 2\n",
  "\n", "i 0\n", "nodes 2 \n", " nodes 2\n", "nodes 2\ni 0 \n", "nodes 2\ni 0 1\n",
  "nodes 2\ns 0\n", "nodes 2\nt 0\n", "nodes 2\ns 0 1 1\n", "nodes 2\nx 0\n", "nodes 2\nT 0 1\n",
  "nodes 2\ni 00\n", "nodes 2\ni 2\n", "nodes 2\ni -1\n", "nodes 2\ns 0 0\nd 0 0\nb 0\n",
  "nodes\n", "nodes 2\ni\n", "nodes 2\ni 0\u00e9\n", "nodes 1\nt 0 0\ni 0\nb 0\n", "nodes 2\n" + "t 0 1\n".repeat(514),
  // a frame to one receiver and to two, with a place too few and with places enough
  ...[510, 511].flatMap((count) => ["i 0\nb 0\ni 1\nb 1\n", "i 2\nb 2\nb 2\nb 2\n"]
    .map((lines) => "nodes 3\n" + "t 0 1\n".repeat(count) + lines)),
];
modelled(bad).slice(0, -1).forEach((printed, at) => hold("bad", bad[at], printed));

// ---- Random scripts: mostly what a board does, now and then anything

const below = page.drawing(20260101);

function randomLine(stage) {
  const a = below(stage.size), b = below(stage.size), item = stage.items[below(Math.max(stage.items.length, 1))];
  if (below(40) === 0) return ["s", "t", "d", "i", "b"][below(5)] + ` ${a}` + (below(2) ? ` ${b}` : "");
  if (below(20) < 9 && item) return `d ${item.from} ${item.to}`;
  if (stage.states[a][OCB.OCB_AT_BUSY] === 0) return `b ${a}`;
  return below(3) === 0 ? `${below(2) ? "s" : "t"} ${a} ${b}` : `i ${a}`;
}

function randomScript() {
  let script = `nodes ${1 + below(16)}\n`, [stage] = page.stagesOf(library, Buffer.from(script)).stages;
  for (let line = 2; ; line++) {
    const next = randomLine(stage), event = page.lineOf(next);
    if (script.length + next.length + 1 > 4096) return script;
    script += next + "\n";
    if (event === null) return script;
    stage = page.played(library, stage, event, line);
  }
}

const random = Array.from({ length: 300 }, randomScript), answers = new Set();
modelled(random).slice(0, -1).forEach((printed, at) => {
  for (const { event } of hold("random", random[at], printed).stages.slice(1)) answers.add(event.answer);
});
for (const answer of [0, 3, 4, 7, 12, 16, 20, 21, 22, 23])
  assert.ok(answers.has(answer), `no random script was answered ${answer}`);

// ---- Clauses that no run comes to, by frames that no node of the board has sent

function clauseAfter(script, fields) {
  const [state] = page.stagesOf(library, Buffer.from(script)).stages.at(-1).states;
  const numbers = Buffer.from(Uint32Array.from(fields.slice(4)).buffer);
  const stored = library.frameIn(state, Buffer.concat([Buffer.from(fields.slice(0, 4)), numbers]));
  assert.equal(stored.answer, OCB.OCB_DONE, "the frame is stored");
  const waits = library.barrier(stored.state), clauses = page.clausesOf(page.stateOf(stored.state));
  assert.equal(waits.answer, OCB.OCB_WAITS);
  assert.equal(clauses.find(([, , one, , other]) => one !== other)[0], waits.found[4]);
  return waits.found[4];
}
const signedIn = "nodes 2\ni 0\nb 0\n", second = signedIn + "i 1\nb 1\nd 1 0\nb 0\nb 0\n";
assert.equal(clauseAfter(signedIn, [1, 0, 0, 1, 0, 1, 0, 1]), 1);
assert.equal(clauseAfter(signedIn, [1, 0, 0, 1, 1, 0, 1, 0]), 2);
assert.equal(clauseAfter(signedIn, [1, 0, 0, 1, 0, 0, 3, 1]), 4);
assert.equal(clauseAfter(second, [2, 0, 0, 1, 1, 0]), 5);
assert.equal(clauseAfter(second, [2, 0, 0, 1, 0, 5]), 6);

// ---- A cycle played to its end, and on into the next

function ended(size, links) {
  const stages = [page.opening(library, size)];
  const step = (event) => stages.push(page.played(library, stages.at(-1), event, stages.length + 1));
  for (let cycle = 0; cycle < 2; cycle++) {
    for (let i = 0; i < 4 && size > 1; i++) step({ act: "st"[below(2)], a: below(size), b: below(size) });
    for (const event of page.toTheEnd(library, stages.at(-1), links, 1e9)) step(event);
    assert.deepEqual(stages.at(-1).left, new Array(size).fill(cycle + 1), `a board of ${size}, ${links.speed}`);
  }
  for (const stage of stages.slice(1)) {
    assert.ok(![OCB.OCB_WAITS, OCB.OCB_EARLY].includes(stage.event.answer));
    holdNumbers(stage);
  }
  counts.ended++;
}
for (let size = 1; size <= 16; size++) {
  for (const speed of ["fast", "slow", "random"]) {
    for (const slow of [[], ["0 1", `${size - 1} 0`]]) ended(size, { speed, slow: new Set(slow), seed: size });
  }
}

function seeded(seed) {
  const links = { speed: "random", slow: new Set(), seed };
  return page.toTheEnd(library, page.opening(library, 5), links, 1e9);
}
assert.deepEqual(seeded(7), seeded(7));
assert.notDeepEqual(seeded(7), seeded(8));

// ---- Addresses

const there = (given) => page.momentOf(page.addressOf(given), DATA.scripts);
for (const [name, script] of Object.entries(DATA.scripts)) {
  assert.deepEqual(there({ preset: name, text: "", line: 42 }), { preset: name, text: script, line: 42 });
  assert.deepEqual(there({ preset: "", text: script, line: null }), { preset: "", text: script, line: null });
}
for (const script of [...bad, ...random]) assert.equal(there({ preset: "", text: script, line: null }).text, script);
assert.equal(page.addressOf({ preset: "", text: "nodes 5\ns 4 0\ni 4\n", line: 3 }), "#nodes.5,s.4.0,i.4:3");
for (const hash of ["", "#", "#nothing", "#rollback_of_six:3", "#text=%", "#nodes.5,,i.0"])
  assert.equal(page.momentOf(hash, DATA.scripts), null);

// ---- Links of the pages to moments

let links = 0;
const pages = fs.readdirSync("docs").filter((name) => name.endsWith(".md")).map((name) => `docs/${name}`);
for (const file of ["README.md", ...pages]) {
  for (const [, hash] of fs.readFileSync(file, "utf8").matchAll(/explorer\.html(#[^)\s]*)/g)) {
    const moment = page.momentOf(hash, DATA.scripts);
    const { stop } = page.stagesOf(library, Buffer.from(moment?.text ?? ""));
    assert.ok(stop === null && (moment.line ?? 1) < moment.text.split("\n").length, `${file}: ${hash} is a moment`);
    links++;
  }
}

console.log(`explorer without a browser: ${counts.scripts} scripts, ${counts.bad} bad or bordering inputs`
  + ` and ${counts.random} random scripts, ${counts.lines} lines as rehearse and the model print them;`
  + ` ${counts.frames} frames with the sums shown, ${counts.waits} waits with the clause shown;`
  + ` ${counts.ended} boards played to the end; ${links} links to moments`);
