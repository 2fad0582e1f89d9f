"use strict";
// The proved library and the proved rehearsal, as WebAssembly, with arrays for pointers; and what the words of a
// state say. DATA.header has the numbers of include/ocb.h by name, DATA.boards by the nodes of a board where its states
// have what. Nothing here or in board.js, sums.js, plan.js, words.js and address.js wants a browser.

const OCB = DATA.header;
const FIELDS = { pass: 0, phase: 1, dimension: 2, sender: 3, totalSent: 4, totalTaken: 5, total: 6, shells: 7 };

// The library's functions. A state that is handed in stays as it is; the reply has the new one.
function libraryOf(instance) {
  const { memory, __heap_base: heap, ...functions } = instance.exports;
  const ROOM = 1024; // bytes for each of the three things that a call is lent
  const state = (heap.value + 15) & ~15, bytes = state + ROOM, found = bytes + ROOM;
  if (memory.buffer.byteLength < found + ROOM) memory.grow(1);
  const words = (at, count) => new Uint32Array(memory.buffer, at, count);
  const octets = (at, count) => new Uint8Array(memory.buffer, at, count);

  function call(name, given, rest, frame = []) {
    words(state, given.length).set(given);
    octets(bytes, frame.length).set(frame);
    words(found, OCB.OCB_FIELD_WORDS).fill(0);
    const answer = functions[name](...rest) >>> 0;
    return {
      answer,
      state: words(state, given.length).slice(),
      bytes: octets(bytes, OCB.OCB_FRAME_BYTES).slice(),
      found: words(found, OCB.OCB_FIELD_WORDS).slice(),
    };
  }
  const onState = (name, given, ...rest) => call(name, given, [state, given.length, ...rest]);
  const lookup = (name, ...rest) => call(name, [], [...rest, found]).found;
  return {
    fresh: (size, node) => onState("ocb_fresh", new Uint32Array(DATA.boards[size].words), size, node),
    send: (given, to) => onState("ocb_send", given, to),
    take: (given, from, phase) => onState("ocb_take", given, from, phase),
    takeNote: (given, from, phase) => onState("ocb_take_note", given, from, phase),
    idle: (given) => onState("ocb_idle", given),
    frameIn: (given, frame) => call("ocb_frame_in", given, [state, given.length, bytes, frame.length], frame),
    barrier: (given) => onState("ocb_barrier", given, bytes, OCB.OCB_FRAME_BYTES, found),
    fields: (size, frame) => call("ocb_frame_read", [], [size, bytes, frame.length, found], frame).found,
    dimension: (size) => lookup("ocb_dimension", size)[0],
    place: (size, k, node) => lookup("ocb_place", size, k, node).slice(0, OCB.OCB_PLACE_WORDS),
    distance: (size, a, b) => lookup("ocb_distance", size, a, b)[0],
  };
}

// The rehearsal: bytes of a script in, what the program rehearse prints of it out. What it is lent lies above its own memory.
async function rehearseOf(module) {
  const { memory, ocb_rehearse, __heap_base } = (await WebAssembly.instantiate(module, {})).exports;
  const { script: most, places: room, text: longest } = DATA.lent;
  const places = __heap_base.value, text = places + room, given = text + longest;
  memory.grow(Math.ceil((room + longest + most) / 65536));
  return (bytes) => {
    const octets = new Uint8Array(memory.buffer), script = bytes.slice(0, most);
    octets.fill(0, places, given);
    octets.set(script, given);
    const count = ocb_rehearse(places, text, given, script.length);
    return Array.from(octets.subarray(text, text + count), (byte) => String.fromCharCode(byte)).join("");
  };
}

// Both, from what the page holds.
async function started() {
  const compiled = (text) => WebAssembly.compile(Uint8Array.from(atob(text), (letter) => letter.charCodeAt(0)));
  const library = libraryOf(await WebAssembly.instantiate(await compiled(DATA.barrier), {}));
  return [library, await rehearseOf(await compiled(DATA.rehearse))];
}

// What the words of a state say. A stored frame is null, or its numbers: by shell where it has them by shell.
function stateOf(words) {
  const board = DATA.boards[words[OCB.OCB_AT_NODES]], shells = board.sent.length;
  const numbers = (at, count) => (words[at] === 0 ? null : Array.from(words.slice(at + 1, at + 1 + count)));
  const byShell = (list, k) => [...new Array(k).fill(0), ...list];
  const first = (at, k) => {
    const n = shells - k, list = numbers(at, 2 * n + 2);
    return list && {
      sent: byShell(list.slice(0, n), k),
      taken: byShell(list.slice(n, 2 * n), k),
      totalSent: list[2 * n],
      totalTaken: list[2 * n + 1],
    };
  };
  const second = (at) => {
    const list = numbers(at, 2);
    return list && { total: list[0], totalSent: list[1] };
  };
  return {
    nodes: words[OCB.OCB_AT_NODES],
    number: words[OCB.OCB_AT_NUMBER],
    phase: words[OCB.OCB_AT_PHASE],
    busy: words[OCB.OCB_AT_BUSY],
    pass: words[OCB.OCB_AT_PASS],
    dimension: words[OCB.OCB_AT_DIMENSION],
    flag: words[OCB.OCB_AT_FLAG],
    total: words[OCB.OCB_AT_TOTAL],
    sent: board.sent.map((at) => words[at]),
    taken: board.taken.map((at) => words[at]),
    first: board.first.map(first),
    second: board.second.map(second),
  };
}
