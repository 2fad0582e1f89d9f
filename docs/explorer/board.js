// A board of up to 16 nodes, played from a script as rehearse plays it. What a node does is up to the library; the
// items on the links are kept here, oldest first.

const NODES = 16, PLACES = 512, SCRIPT = 4096; // the rehearsal's limits: nodes, items under way, bytes of a script
const KINDS = { s: "job", t: "note" }; // what a line sends

// ---- Lines of a script

// One to three digits, a zero first only alone; null otherwise.
const numberOf = (text) => (/^(0|[1-9][0-9]{0,2})$/.test(text ?? "") ? Number(text) : null);

// A line without its newline as { act, a, b }, or null where it is not of the stated form.
function lineOf(text) {
  const [act, ...rest] = text.split(" ");
  const count = { nodes: 1, i: 1, b: 1, s: 2, t: 2, d: 2 }[act], [a, b] = rest.map(numberOf);
  if (count !== rest.length || a === null || b === null) return null;
  return { act, a, b: b ?? null };
}

const textOf = ({ act, a, b }) => [act, a, b].filter((part) => part !== null).join(" ");

// ---- Playing

// A board that has just started. left: how often each node has left a cycle; sent: by step the line that sent its frame
// last.
function opening(library, size) {
  const states = Array.from({ length: size }, (_, node) => library.fresh(size, node).state);
  return { size, states, items: [], event: null, sent: new Map(), left: new Array(size).fill(0) };
}

// The board after a call at a node. A refusal gives back the state as it was.
function withReply(stage, event, reply) {
  event.answer = reply.answer;
  event.after = reply.state;
  const states = stage.states.map((state, node) => (node === event.node ? reply.state : state));
  const leaves = (node) => node === event.node && reply.answer === OCB.OCB_LEFT;
  const left = stage.left.map((count, node) => count + (leaves(node) ? 1 : 0));
  return { ...stage, event, states, left };
}

const crowded = (stage, event) => withReply(stage, event, { answer: OCB.OCB_CROWDED, state: event.before });

function sends(library, stage, event) {
  const reply = library.send(event.before, event.b);
  if (reply.answer !== OCB.OCB_DONE) return withReply(stage, event, reply);
  if (stage.items.length === PLACES) return crowded(stage, event);
  const { line, a: from, b: to } = event, kind = KINDS[event.act], phase = event.before[OCB.OCB_AT_PHASE];
  const item = { line, from, to, kind, phase, frame: null };
  return { ...withReply(stage, event, reply), items: [...stage.items, item] };
}

function calls(library, stage, event) {
  const reply = library.barrier(event.before), [count, one, other, length, clause] = reply.found;
  if (reply.answer === OCB.OCB_WAITS) event.clause = clause;
  if (reply.answer !== OCB.OCB_SENT) return withReply(stage, event, reply);
  if (PLACES - stage.items.length < count) return crowded(stage, event);
  const { line, node } = event, phase = event.before[OCB.OCB_AT_PHASE];
  const bytes = reply.bytes.slice(0, length), fields = library.fields(stage.size, bytes);
  const step = [node, phase, fields[FIELDS.pass], fields[FIELDS.dimension]].join(" ");
  const frame = { to: [one, other].slice(0, count), bytes, fields, earlier: stage.sent.get(step) ?? 0 };
  event.frame = frame;
  const items = frame.to.map((to) => ({ line, from: node, to, kind: "frame", phase, frame }));
  const sent = new Map(stage.sent).set(step, line);
  return { ...withReply(stage, event, reply), sent, items: [...stage.items, ...items] };
}

function delivers(library, stage, event) {
  const item = stage.items.find((one) => one.from === event.a && one.to === event.b);
  if (item === undefined) return withReply(stage, event, { answer: OCB.OCB_NOTHING, state: event.before });
  event.item = item;
  const reply = item.kind === "frame" ? library.frameIn(event.before, item.frame.bytes)
    : item.kind === "job" ? library.take(event.before, item.from, item.phase)
    : library.takeNote(event.before, item.from, item.phase);
  const items = reply.answer === OCB.OCB_EARLY ? stage.items : stage.items.filter((one) => one !== item);
  return { ...withReply(stage, event, reply), items };
}

// The board after an event { act, a, b } of a line; .event has what happened.
function played(library, stage, { act, a, b }, line) {
  const node = act === "d" ? b : a, before = stage.states[node];
  const text = textOf({ act, a, b });
  const event = { line, act, a, b, node, text, before, after: before, clause: null, frame: null, item: null };
  if (act === "i") return withReply(stage, event, library.idle(before));
  return { s: sends, t: sends, b: calls, d: delivers }[act](library, stage, event);
}

// Every stage of a script given as bytes, and what stopped it: null, or { why, line }.
function stagesOf(library, bytes) {
  const stopped = (why, line, stages = []) => ({ stages, stop: { why, line } });
  if (bytes.length > SCRIPT) return stopped(OCB.OCB_SCRIPT, 0);
  const lines = Array.from(bytes, (byte) => String.fromCharCode(byte)).join("").split("\n");
  const unended = lines.pop(); // what stands behind the last newline
  const head = lines.length > 0 ? lineOf(lines[0]) : null;
  if (head === null || head.act !== "nodes") return stopped(OCB.OCB_SCRIPT, 1);
  if (head.a === 0 || head.a > NODES) return stopped(OCB.OCB_BOARD, 1);
  const stages = [opening(library, head.a)];
  for (let i = 1; i < lines.length; i++) {
    const line = lineOf(lines[i]);
    const bad = line === null || line.act === "nodes" || line.a >= head.a || (line.b ?? 0) >= head.a;
    if (bad) return stopped(OCB.OCB_SCRIPT, i + 1, stages);
    stages.push(played(library, stages[i - 1], line, i + 1));
  }
  return unended === "" ? { stages, stop: null } : stopped(OCB.OCB_SCRIPT, lines.length + 1, stages);
}

// ---- What is printed

function printedLine({ node, answer, after }) {
  const shown = ["PHASE", "PASS", "DIMENSION", "FLAG", "BUSY"].map((name) => after[OCB[`OCB_AT_${name}`]]);
  return [node, answer, ...shown].join(" ");
}

// What rehearse prints.
function printedOf({ stages, stop }) {
  const lines = ["node answer phase pass dim flag busy", ...stages.slice(1).map((stage) => printedLine(stage.event))];
  if (stop !== null) lines.push(`stop ${stop.why} at line ${stop.line}`);
  return lines.map((line) => line + "\n").join("");
}

// The script of stages.
function scriptOf(stages) {
  const lines = [`nodes ${stages[0].size}`, ...stages.slice(1).map((stage) => stage.event.text)];
  return lines.map((line) => line + "\n").join("");
}
