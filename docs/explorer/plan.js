// The events that end a cycle, chosen as slow, fast or random links would have them. Each choice is tried on the board
// first, so that no barrier call is made that would wait, and no early item is delivered.

// Numbers below a bound from a seed, the same on every machine.
function drawing(seed) {
  let state = seed >>> 0;
  return (bound) => {
    state = (state + 0x6d2b79f5) >>> 0;
    let mixed = Math.imul(state ^ (state >>> 15), state | 1);
    mixed ^= mixed + Math.imul(mixed ^ (mixed >>> 7), mixed | 61);
    return ((mixed ^ (mixed >>> 14)) >>> 0) % bound;
  };
}

const linkOf = ({ from, to }) => `${from} ${to}`;

// The oldest item of every link, oldest first.
function oldestItems(stage) {
  const seen = new Set();
  return stage.items.filter((item) => !seen.has(linkOf(item)) && seen.add(linkOf(item)));
}

// What can happen next in the oldest cycle, tried: deliveries, and calls at the nodes that are still in it.
function choices(library, stage) {
  const cycle = Math.min(...stage.left), tried = (event) => ({ event, stage: played(library, stage, event, 0) });
  const useful = ({ stage: { event } }) => ![OCB.OCB_WAITS, OCB.OCB_EARLY, OCB.OCB_CROWDED].includes(event.answer);
  const nodes = stage.states.map((_, node) => node).filter((node) => stage.left[node] === cycle);
  const call = (a) => ({ act: stage.states[a][OCB.OCB_AT_BUSY] ? "i" : "b", a, b: null });
  return {
    deliveries: oldestItems(stage).map(({ from, to }) => tried({ act: "d", a: from, b: to })).filter(useful),
    calls: nodes.map((a) => tried(call(a))).filter(useful),
  };
}

// The choice by the links' speed; a link that is slow by itself delivers only where nothing else can happen.
function chosen({ deliveries, calls }, { speed, slow }, below) {
  const isSlow = ({ event }) => slow.has(`${event.a} ${event.b}`);
  const late = deliveries.filter(isSlow), quick = deliveries.filter((one) => !isSlow(one));
  const soon = [...quick, ...calls];
  if (speed === "random" && soon.length > 0) return soon[below(soon.length)];
  const order = speed === "slow" ? [calls, quick, late] : [quick, calls, late];
  return order.find((list) => list.length > 0)?.[0];
}

// The events up to where every node has left the cycle that is the oldest now; at most so many bytes of lines.
function toTheEnd(library, stage, links, room) {
  const cycle = Math.min(...stage.left), below = drawing(links.seed), events = [];
  let bytes = 0;
  while (Math.min(...stage.left) === cycle) {
    const next = chosen(choices(library, stage), links, below);
    if (next === undefined) break;
    bytes += textOf(next.event).length + 1;
    if (bytes > room) break;
    events.push(next.event);
    stage = next.stage;
  }
  return events;
}
