// The page: what is shown, and what a click does.

let library, rehearse;
// All stages of the script, how many of its events are played, what stopped it and its bytes then, the preset that it
// is, a text that has no first line to play, slow links, whether every row of the chart is shown, and the timer of a
// run.
const show = {
  stages: [],
  at: 0,
  stop: null,
  bytes: null,
  preset: "",
  rejected: null,
  note: "",
  slow: new Set(),
  all: false,
  timer: null,
};
const ROWS = 120; // of the chart, unless all are asked for
const PACE = 900; // milliseconds between two events of a run
const $ = (id) => document.getElementById(id);
const stageNow = () => show.stages[show.at];
const playedNow = () => show.stages.slice(0, show.at + 1);
const bytesOf = (text) => new TextEncoder().encode(text);

function make(tag, attributes, ...inside) {
  const element = document.createElement(tag);
  for (const [name, value] of Object.entries(attributes)) {
    if (name === "onclick") element.addEventListener("click", value);
    else if (value !== false) element.setAttribute(name, value);
  }
  const parts = inside.filter((part) => part !== null);
  element.append(...parts.map((part) => (part instanceof Node ? part : String(part))));
  return element;
}

function tableOf(caption, heads, rows) {
  const cells = (tag, list) => make("tr", {}, ...list.map((cell) => make(tag, {}, cell)));
  const title = caption && make("caption", {}, caption);
  return make("table", {}, title, cells("th", heads), ...rows.map((row) => cells("td", row)));
}

function fill(select, entries, value = select.value) {
  select.replaceChildren(...entries.map(([at, words]) => make("option", { value: at }, words)));
  if (entries.some(([at]) => String(at) === String(value))) select.value = value;
}

// ---- What a click does

// Plays a script given as bytes: the whole of it, or as far as a line.
function play(bytes, { preset = "", line = null } = {}) {
  const { stages, stop } = stagesOf(library, bytes);
  stopRun();
  if (stages.length === 0) {
    Object.assign(show, { rejected: bytes, note: "" });
    return draw();
  }
  const at = line === null ? stages.length - 1 : Math.min(line - 1, stages.length - 1);
  const slow = [...show.slow].filter((link) => link.split(" ").every((node) => node < stages[0].size));
  Object.assign(show, { stages, stop, bytes, at, preset, rejected: null, note: "", slow: new Set(slow), all: false });
  draw();
}

// Events behind those played now; what was to come goes.
function add(events) {
  const stages = playedNow();
  let bytes = scriptOf(stages).length;
  stopRun();
  show.note = "";
  for (const event of events) {
    const stage = played(library, stages.at(-1), event, stages.length + 1);
    bytes += stage.event.text.length + 1;
    if (bytes > SCRIPT) {
      show.note = "A script has at most 4,096 bytes: the rest is not played. Save it, and start a board anew.";
      break;
    }
    stages.push(stage);
  }
  Object.assign(show, { stages, at: stages.length - 1, stop: null, bytes: null, preset: "", rejected: null });
  draw();
}

// The event that is typed.
function happen() {
  const event = lineOf($("event").value.trim()), { size } = stageNow();
  if (event !== null && event.act !== "nodes" && event.a < size && (event.b ?? 0) < size) return add([event]);
  show.note = `That is no event of this board: a letter, then node numbers from 0 to ${size - 1}.`;
  draw();
}

function end() {
  const links = { speed: $("speed").value, seed: Number($("seed").value), slow: show.slow };
  const events = toTheEnd(library, stageNow(), links, SCRIPT);
  if (events.length > 0) return add(events);
  show.note = "Nothing can happen any more in this cycle.";
  draw();
}

function go(at) {
  Object.assign(show, { at: Math.max(0, Math.min(at, show.stages.length - 1)), note: "", rejected: null });
  draw();
}

function stopRun() {
  clearInterval(show.timer);
  show.timer = null;
}

// Steps forward by itself, from the start where the end is reached.
function run() {
  if (show.timer !== null) {
    stopRun();
    return draw();
  }
  show.timer = setInterval(() => {
    if (show.at >= show.stages.length - 2) stopRun();
    go(show.at + 1);
  }, PACE);
  go(show.at === show.stages.length - 1 ? 0 : show.at);
}

function markSlow(link) {
  if (!show.slow.delete(link)) show.slow.add(link);
  draw();
}

function save() {
  const url = URL.createObjectURL(new Blob([scriptOf(playedNow())], { type: "text/plain" }));
  make("a", { href: url, download: `${show.preset || `board_of_${stageNow().size}`}.txt` }).click();
  setTimeout(() => URL.revokeObjectURL(url), 10000);
}

async function copyLink() {
  const link = location.href.split("#")[0] + address();
  try {
    await navigator.clipboard.writeText(link);
    $("copied").textContent = "Copied.";
  } catch {
    $("copied").textContent = "It stands in the address bar.";
  }
}

// ---- Drawing

// The script that is shown and how far, for the address.
function address() {
  const whole = show.at === show.stages.length - 1, line = whole ? null : show.at + 1;
  if (show.preset !== "") return addressOf({ preset: show.preset, text: "", line });
  const text = show.stop !== null ? new TextDecoder().decode(show.bytes) : scriptOf(show.stages);
  return addressOf({ preset: "", text, line });
}

// Where the steps stand, and which of them can be taken.
function drawSteps() {
  const last = show.stages.length - 1;
  $("at").max = last;
  $("at").value = show.at;
  $("count").textContent = `${show.at} of ${last} events`;
  for (const id of ["first", "back"]) $(id).disabled = show.at === 0;
  for (const id of ["forward", "last"]) $(id).disabled = show.at === last;
  $("run").setAttribute("aria-pressed", String(show.timer !== null));
  $("run").disabled = last === 0;
}

function saidAtStart({ size }) {
  const nodes = size === 1 ? "its node is" : "all nodes are";
  const next = "Let something happen at a node, play the cycle to its end, or take a script.";
  return [
    make("div", {}, make("b", {}, `A board of ${size} has started: ${nodes} busy, in phase 0.`)),
    make("div", { class: "quiet" }, next),
  ];
}

function saidOfEvent(stage) {
  const { event } = stage, quiet = (words) => make("span", { class: "quiet" }, words);
  const what = make("b", { class: isRefused(event.answer) ? "bad" : "" }, capital(eventWords(event)));
  const line = [quiet(`Line ${event.line}, `), make("code", {}, event.text), ": ", what];
  return [
    make("div", {}, ...line, quiet(` (answer ${event.answer})`)),
    make("div", { class: "quiet" }, moreWords(library, stage, event)),
  ];
}

function saidOfStop() {
  const message = $("printed").textContent.trim().split("\n").at(-1);
  return make("div", { class: "bad" }, "rehearse says: ", make("code", {}, message), ` (${stopWords()})`);
}

function drawSaid() {
  const stage = stageNow(), last = show.stages.length - 1;
  drawSteps();
  const inside = stage.event === null ? saidAtStart(stage) : saidOfEvent(stage);
  const stopped = show.rejected !== null || (show.stop !== null && show.at === last);
  if (stopped) inside.push(saidOfStop());
  if (show.note) inside.push(make("div", { class: "bad" }, show.note));
  $("said").replaceChildren(...inside);
}

// What a script is stopped for.
function stopWords() {
  const { why, line } = show.rejected === null ? show.stop : stagesOf(library, show.rejected).stop;
  const { word, when } = DATA.refusals[why];
  if (line === 0) return `${word}: more than 4,096 bytes`;
  return why === OCB.OCB_BOARD ? `${word}: a board has 1 to ${NODES} nodes here` : `${word}: ${when}`;
}

// What a node is in: the head of its card.
function nodeHead(state, a) {
  const pill = make("span", { class: `pill${state.busy ? " busy" : ""}` }, state.busy ? "busy" : "idle");
  const step = `phase ${state.phase}, ${namedStep(state)}, flag ${state.flag}, T ${state.total}`;
  return make("div", { class: "row" }, make("b", {}, `Node ${a}`), pill, make("span", { class: "quiet" }, step));
}

// What can happen at a node.
function nodeButtons(stage, a) {
  const button = (act, title, words, receiver) => {
    const onclick = () => add([{ act, a, b: receiver() }]);
    return make("button", { id: `${act}-${a}`, title, onclick }, words);
  };
  const to = make("select", { id: `to-${a}`, "aria-label": `receiver of node ${a}` });
  fill(to, stage.states.map((_, b) => [b, b === a ? `${b}, itself` : b]), receivers.get(a) ?? (a + 1) % stage.size);
  to.addEventListener("change", () => receivers.set(a, Number(to.value)));
  const press = (act, words) => button(act, `${act} ${a}`, words, () => null);
  const send = (act) => button(act, `${act} ${a} …`, capital(KINDS[act]), () => Number(to.value));
  const parts = [press("i", "Out of work"), press("b", "Barrier call"), send("s"), send("t"), "to", to];
  return make("div", { class: "row" }, ...parts);
}

function nodeCard(stage, a) {
  const names = `card${stage.event?.node === a ? " just" : ""}`;
  return make("div", { class: names, role: "group", "aria-label": `node ${a}` },
    nodeHead(stateOf(stage.states[a]), a),
    make("div", { class: "quiet" }, standing(library, stage, a)),
    nodeButtons(stage, a));
}

const receivers = new Map(); // the receiver that is chosen at each node

function drawNodes() {
  const stage = stageNow();
  $("nodes").replaceChildren(...stage.states.map((_, a) => nodeCard(stage, a)));
}

const itemWords = (item) =>
  (item.frame === null ? item.kind : `frame of ${frameStep(item.frame)}`) + `, line ${item.line}`;
const itemClass = (item) =>
  (item.frame === null ? item.kind : item.frame.fields[FIELDS.pass] === 1 ? "first" : "second");

function linkRow(items) {
  const [{ from, to }] = items, link = linkOf(items[0]), slow = show.slow.has(link);
  const deliver = () => add([{ act: "d", a: from, b: to }]);
  return make("div", { class: "link row" },
    make("b", {}, `${from} → ${to}`),
    make("button", { id: `d-${from}-${to}`, title: `d ${from} ${to}`, onclick: deliver }, "Deliver"),
    ...items.slice(0, 6).map((item) => make("span", { class: `item ${itemClass(item)}` }, itemWords(item))),
    items.length > 6 ? make("span", { class: "quiet" }, `and ${items.length - 6} more`) : null,
    make("button", { id: `slow-${from}-${to}`, "aria-pressed": String(slow), onclick: () => markSlow(link) }, "slow"));
}

function slowLink(link) {
  const [from, to] = link.split(" "), words = `${from} → ${to} is slow: not any more`;
  return make("button", { id: `quick-${from}-${to}`, onclick: () => markSlow(link) }, words);
}

function drawLinks() {
  const { items, size } = stageNow(), entries = Array.from({ length: size }, (_, at) => [at, at]);
  const onLink = (oldest) => items.filter((item) => linkOf(item) === linkOf(oldest));
  const rows = oldestItems(stageNow()).map((oldest) => linkRow(onLink(oldest)));
  const none = make("span", { class: "quiet" }, "Nothing is under way.");
  $("links").replaceChildren(...(rows.length > 0 ? rows : [none]));
  for (const [id, node] of [["slow-from", 0], ["slow-to", 1]]) fill($(id), entries, $(id).value || node);
  $("slow-links").replaceChildren(...[...show.slow].map(slowLink));
}

function drawChart() {
  const stages = playedNow(), hidden = stages.length - 1 - ROWS;
  const first = show.all || hidden <= 0 ? 2 : hidden + 2;
  const [titles, rows] = chartOf(stages, first), button = $("all-rows");
  button.hidden = hidden <= 0;
  button.textContent = show.all ? `Show the last ${ROWS} events alone` : `Show the ${hidden} events before these too`;
  $("chart").innerHTML = `<div class="titles">${titles}</div>${rows}`;
  $("chart").scrollTop = $("chart").scrollHeight;
}

// The nodes of a node's shell k, in words.
function shellWords(stage, node, k) {
  const others = stage.states.map((_, other) => other).filter((other) => other !== node);
  return nodesWords(others.filter((other) => library.distance(stage.size, node, other) === k));
}

// The stored frames of a step of both passes.
function keptFrames(k, first, second) {
  const upper = (list) => list.slice(k).join(" ");
  const firstWords = ({ sent, taken, totalSent, totalTaken }) =>
    `pass 1: sent ${upper(sent)}, taken ${upper(taken)}, totals ${totalSent} and ${totalTaken}`;
  const secondWords = ({ total, totalSent }) => `pass 2: T ${total}, total sent ${totalSent}`;
  return make("div", {},
    first && make("div", {}, firstWords(first)),
    second && make("div", {}, secondWords(second)),
    first || second ? null : "none");
}

// Tallies and stored frames of a node, a row for each shell.
function keptTable(stage, node) {
  const { sent, taken, first, second } = stateOf(stage.states[node]);
  if (sent.length === 0) return make("p", { class: "quiet" }, "A board of one has no other node to count for.");
  const row = (_, k) => [`${k}: ${shellWords(stage, node, k)}`, sent[k], taken[k], keptFrames(k, first[k], second[k])];
  return tableOf(`Node ${node}`, ["Shell", "Sent", "Taken", "Stored frames"], sent.map(row));
}

function drawKept() {
  const stage = stageNow();
  $("kept").replaceChildren(...stage.states.map((_, node) => keptTable(stage, node)));
}

function drawPartners() {
  const stage = stageNow(), { size } = stage, inside = $("places").querySelector("div");
  const all = stage.states.map((_, node) => node), ks = DATA.boards[size].sent.map((_, k) => k);
  if (ks.length === 0) {
    $("partners").textContent = "A board of one has no steps: its node leaves when it is idle.";
    return inside.replaceChildren();
  }
  $("partners").innerHTML = partnersOf(library, stage);
  const heads = (name) => ["Node", ...ks.map((k) => `${name} ${k}`)];
  const rows = (words) => all.map((node) => [node, ...ks.map((k) => words(node, k))]);
  inside.replaceChildren(
    tableOf("Places", heads("Dimension"), rows((node, k) => placeWords(library.place(size, k, node)))),
    tableOf("Shells", heads("Shell"), rows((node, k) => shellWords(stage, node, k))));
}

// The script, what rehearse prints for it, and whether the page shows the same.
function drawScript() {
  const stages = playedNow(), stop = show.at === show.stages.length - 1 ? show.stop : null;
  const bytes = show.rejected ?? (stop === null ? bytesOf(scriptOf(stages)) : show.bytes);
  const printed = rehearse(bytes);
  const own = show.rejected === null ? { stages, stop } : stagesOf(library, show.rejected);
  if (document.activeElement !== $("script")) $("script").value = new TextDecoder().decode(bytes);
  const same = printed === printedOf(own);
  $("printed").textContent = printed;
  $("printed").scrollTop = $("printed").scrollHeight;
  $("same").textContent = same
    ? "What the page shows is the same, line by line."
    : "What the page shows is something else: do not trust it.";
  $("same").className = same ? "quiet" : "bad";
}

function draw() {
  const focused = document.activeElement?.id;
  $("size").value = stageNow().size;
  $("preset").value = show.preset;
  $("copied").textContent = "";
  for (const part of [drawScript, drawSaid, drawNodes, drawLinks, drawChart, drawKept, drawPartners]) part();
  keepFocus(focused);
  try {
    history.replaceState(null, "", address());
  } catch {
    // a browser may allow no more of these for a while: the address is that of an earlier moment then
  }
}

// Elements are made anew: the one that had the focus has it again. Where it is gone, as the button of a link that is
// empty now, or can't have it any more, its neighbour has it.
function keepFocus(id) {
  if (!id || document.activeElement?.id === id) return;
  const usable = (element) => element !== null && !element.disabled && element;
  const instead = usable($(id)) || document.querySelector("#links button") || usable($("forward")) || usable($("back"));
  if (instead) instead.focus({ preventScroll: true });
}

// ---- The start

function setLooks() {
  const wish = $("colours").value;
  const dark = wish === "" ? matchMedia("(prefers-color-scheme: dark)").matches : wish === "dark";
  document.documentElement.dataset.colours = dark ? "dark" : "light";
  document.documentElement.style.fontSize = `${$("text-size").value}px`;
}

function playAddress(hash) {
  const moment = momentOf(hash, DATA.scripts);
  if (moment !== null) play(bytesOf(moment.text), moment);
}

// Arrows, Home and End, where they have no other use.
function pressed(event) {
  const moves = { ArrowLeft: show.at - 1, ArrowRight: show.at + 1, Home: 0, End: Infinity };
  const own = event.target.closest("input, select, textarea, [tabindex]") !== null;
  if (own || event.altKey || event.ctrlKey || event.metaKey || moves[event.key] === undefined) return;
  event.preventDefault();
  jump(moves[event.key]);
}

function markChosen() {
  const from = $("slow-from").value, to = $("slow-to").value;
  if (from !== to) markSlow(`${from} ${to}`);
}

function allRows() {
  show.all = !show.all;
  draw();
}

// To a moment that is chosen by hand.
function jump(at) {
  stopRun();
  go(at);
}

function playPreset() {
  const preset = $("preset").value;
  if (preset) play(bytesOf(DATA.scripts[preset]), { preset });
}

async function openFile() {
  if ($("load").files.length > 0) play(new Uint8Array(await $("load").files[0].arrayBuffer()));
  $("load").value = "";
}

function jumpToRow({ target }) {
  const row = target.closest("[data-line]");
  if (row) jump(row.dataset.line - 1);
}

function listen() {
  const clicks = {
    anew: () => play(bytesOf(`nodes ${$("size").value}\n`)),
    first: () => jump(0),
    back: () => jump(show.at - 1),
    forward: () => jump(show.at + 1),
    last: () => jump(Infinity),
    run,
    happen,
    end,
    save,
    copy: copyLink,
    play: () => play(bytesOf($("script").value)),
    slow: markChosen,
    "all-rows": allRows,
  };
  for (const [id, act] of Object.entries(clicks)) $(id).addEventListener("click", act);
  $("event").addEventListener("keydown", (event) => event.key === "Enter" && happen());
  $("at").addEventListener("input", () => jump(Number($("at").value)));
  $("preset").addEventListener("change", playPreset);
  $("load").addEventListener("change", openFile);
  $("chart").addEventListener("click", jumpToRow);
  for (const id of ["colours", "text-size"]) $(id).addEventListener("change", setLooks);
  matchMedia("(prefers-color-scheme: dark)").addEventListener("change", setLooks);
  document.addEventListener("keydown", pressed);
  window.addEventListener("hashchange", () => playAddress(location.hash));
}

async function start() {
  const { hash } = location; // drawing the first board alters it
  [library, rehearse] = await started();
  fill($("size"), Array.from({ length: NODES }, (_, at) => [at + 1, at + 1]));
  fill($("preset"), [["", "…"], ...Object.keys(DATA.scripts).map((name) => [name, name.replaceAll("_", " ")])]);
  $("made").textContent = DATA.made;
  document.body.insertAdjacentHTML("beforeend", arrowHeads());
  $("legend").querySelector("div").innerHTML = legend();
  setLooks();
  listen();
  play(bytesOf("nodes 5\n"));
  playAddress(hash);
  document.body.dataset.ready = "yes";
}

start();
