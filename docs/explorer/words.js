// Events in words: the same as in the tables of docs/BARRIER.md (docs/wording.py), which is tested, and a line more.

const joined = (list) => (list.length < 2 ? list.join("") : `${list.slice(0, -1).join(", ")} and ${list.at(-1)}`);
const capital = (text) => text[0].toUpperCase() + text.slice(1);
const stepWords = (pass, dimension) => `pass ${pass}, dimension ${dimension}`;
const namedStep = ({ pass, dimension }) => stepWords(pass, dimension);
const frameStep = ({ fields }) => stepWords(fields[FIELDS.pass], fields[FIELDS.dimension]);
const refusedWords = (answer) => `refused with ${answer}, ${DATA.refusals[answer].word}`;
const isRefused = (answer) => answer !== OCB.OCB_DONE && answer !== OCB.OCB_EARLY && answer < OCB.OCB_SENT;

// Nodes as a range where three or more follow each other.
const nodesWords = (list) => (list.length > 2 ? `${list[0]} to ${list.at(-1)}` : joined(list) || "none");

function placeWords([kind, awaited, hermit]) {
  return [
    "alone",
    `hermit, awaits ${awaited}`,
    `neighbour of ${awaited}`,
    `neighbour of ${awaited} and messenger to ${hermit}`,
  ][kind];
}

// The nodes whose counts are together at a node before dimension k: its run.
function runOf(library, size, k, node) {
  const all = Array.from({ length: size }, (_, other) => other);
  return all.filter((other) => other === node || library.distance(size, node, other) < k);
}

// Whether a delivery moved its node to an earlier step of the same cycle.
function fellBack({ item, before, after }) {
  const [was, is] = [stateOf(before), stateOf(after)];
  const isEarlier = is.pass < was.pass || (is.pass === was.pass && is.dimension < was.dimension);
  return item !== null && is.phase === was.phase && isEarlier;
}

// ---- What happened

function deliveryWords(event) {
  const { node, answer, item } = event, came = `the ${item.kind} of line ${item.line} reaches ${node}`;
  if (answer === OCB.OCB_EARLY) return `${came}: early, it stays`;
  if (answer === OCB.OCB_DROPPED) return `${came}: late, dropped`;
  if (answer !== OCB.OCB_DONE) return `${came}: ${refusedWords(answer)}`;
  const [was, is] = [stateOf(event.before), stateOf(event.after)], effects = [];
  if (item.kind !== "frame") effects.push(`${was.busy === is.busy ? "stays" : "is"} ${is.busy ? "busy" : "idle"}`);
  if (fellBack(event)) effects.push(`falls back to ${namedStep(is)}`);
  return came + (effects.length > 0 ? `, which ${effects.join(" and ")}` : "");
}

function sentWords({ node, frame }) {
  const again = frame.earlier ? " again" : "";
  return `${node} sends its frame of ${frameStep(frame)} to ${joined(frame.to)}${again}`;
}

function eventWords(event) {
  const { node, answer, frame, item, act } = event, is = stateOf(event.after);
  if (frame !== null) return sentWords(event);
  if (item !== null) return deliveryWords(event);
  if (answer === OCB.OCB_DONE && act === "i") return `${node} is out of work: idle`;
  if (answer === OCB.OCB_DONE) return `${node} sends a ${KINDS[act]} to ${event.b}`;
  if (answer === OCB.OCB_WAITS) return `${node} waits in ${namedStep(is)}: clause ${event.clause}`;
  if (answer === OCB.OCB_MOVED) return `${node} moves on to ${namedStep(is)}`;
  if (answer === OCB.OCB_LEFT) return `${node} leaves: phase ${is.phase} begins for it`;
  return refusedWords(answer);
}

// An answer in a word or two, after its number.
function shortWords(event) {
  const { answer, item, frame, act } = event;
  let words = (DATA.refusals[answer] ?? DATA.answers[answer]).word;
  if (answer === OCB.OCB_DONE && item !== null) words = `${item.kind} in${fellBack(event) ? ", falls back" : ""}`;
  else if (answer === OCB.OCB_DONE) words = act === "i" ? "idle" : `${KINDS[act]} out`;
  else if (answer === OCB.OCB_EARLY) words = "early, stays";
  else if (answer === OCB.OCB_WAITS) words = `waits: clause ${event.clause}`;
  else if (isRefused(answer)) words = `refused: ${words}`;
  else if (frame !== null && frame.earlier) words = "sent again";
  return `${answer} ${words}`;
}

// ---- A line more

// The numbers of a frame by their names, in the frame's order.
function frameWords(size, fields) {
  if (fields[FIELDS.pass] === 2) return `T ${fields[FIELDS.total]}, total sent ${fields[FIELDS.totalSent]}`;
  const shells = DATA.boards[size].sent.map((_, shell) => shell).slice(fields[FIELDS.dimension]);
  const sent = shells.map((m) => `sent to shell ${m}: ${fields[FIELDS.shells + m]}`);
  const taken = shells.map((m) => `taken from shell ${m}: ${fields[FIELDS.shells + OCB.OCB_SHELLS + m]}`);
  const totals = [`total sent ${fields[FIELDS.totalSent]}`, `total taken ${fields[FIELDS.totalTaken]}`];
  return [...sent, ...taken, ...totals].join(", ");
}

// Why a node waits: its clause, and the two numbers that differ.
function clauseWords(library, stage, event) {
  const state = stateOf(event.after), [, awaited] = library.place(stage.size, state.dimension, event.node);
  const run = (node) => nodesWords(runOf(library, stage.size, state.dimension, node));
  const sides = `This side is ${run(event.node)}, the other is ${run(awaited)}, by the frame of ${awaited}.`;
  const step = namedStep(state);
  if (event.clause === 0) return `Clause 0: no frame of ${step} has come from node ${awaited} in this cycle.`;
  const found = clausesOf(state).find(([number]) => number === event.clause);
  if (found === undefined) return `Clause ${event.clause}: a sum is above the limit. ${sides}`;
  const [number, what, one, other, two] = found;
  return `Clause ${number}: ${what} ${one}, and ${other} ${two}. ${sides}`;
}

function deliveryMore(stage, { answer, item }) {
  if (answer === OCB.OCB_EARLY) return `It is of the next cycle: ${DATA.refusals[answer].what}.`;
  if (answer === OCB.OCB_DROPPED) return `${capital(DATA.answers[answer].what)}.`;
  if (item.kind === "frame") return `Stored: ${frameWords(stage.size, item.frame.fields)}.`;
  return `It carries phase ${item.phase}, and is counted as taken from the shell of ${item.from}.`;
}

function refusedMore({ answer }) {
  const { when, what } = DATA.refusals[answer];
  return `${capital(when)}. Nothing has changed. What to do: ${what}.`;
}

function sentMore(stage, { frame }) {
  const before = frame.earlier ? ` It went out before in line ${frame.earlier}.` : "";
  return `In it: ${frameWords(stage.size, frame.fields)}.${before}`;
}

// What else is to be said of an event.
function moreWords(library, stage, event) {
  const { node, answer, frame, item, act } = event, is = stateOf(event.after);
  if (isRefused(answer)) return refusedMore(event);
  if (frame !== null) return sentMore(stage, event);
  if (item !== null) return deliveryMore(stage, event);
  if (answer === OCB.OCB_WAITS) return clauseWords(library, stage, event);
  if (answer === OCB.OCB_MOVED) return is.pass === 2 && is.dimension === 0 ? `Pass 1 has found T = ${is.total}.` : "";
  if (answer === OCB.OCB_LEFT) return "The cycle is over for it: tallies and stored frames are gone, and it is busy.";
  if (act === "i") return "It may call the barrier now.";
  const { phase } = stateOf(event.before), shell = library.distance(stage.size, node, event.b);
  return `It carries phase ${phase}, and is counted as sent to shell ${shell}.`;
}

// A node's place in its step, in words.
function standing(library, stage, node) {
  const state = stateOf(stage.states[node]);
  if (state.busy) return "has not signed in";
  if (state.first.length === 0) return "has no other node to ask";
  const [kind, awaited] = library.place(stage.size, state.dimension, node);
  if (kind === 0) return "alone in this step";
  if (kind === 1) return `hermit in this step, awaits ${awaited}`;
  return state.flag ? "its frame of this step is still to be sent" : `its frame is out, awaits that of ${awaited}`;
}
