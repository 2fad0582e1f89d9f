// Pictures as SVG text: the sequence chart and the partners, drawn as docs/chart.py and docs/partners.py draw them.
// Colours are the style sheet's, so that they follow light and dark. No font is measured.

const svg = {
  text: (x, y, words, names = "") => `<text x="${x}" y="${y}" class="${names}">${words}</text>`,
  line: (x1, y1, x2, y2, names, head) =>
    `<line x1="${x1}" y1="${y1}" x2="${x2}" y2="${y2}" class="${names}"${svg.head(head)}/>`,
  path: (steps, names, head) => `<path d="${steps}" class="${names}"${svg.head(head)}/>`,
  box: (x, y, width, height, names, rx = 0) =>
    `<rect x="${x}" y="${y}" width="${width}" height="${height}" rx="${rx}" class="${names}"/>`,
  circle: (x, y, r, names) => `<circle cx="${x}" cy="${y}" r="${r}" class="${names}"/>`,
  group: (title, parts, more = "") => `<g${more}><title>${title}</title>${parts.join("")}</g>`,
  head: (name) => (name ? ` marker-end="url(#${name})"` : ""),
  // sizes are in rem, so that a picture grows with the page's text
  picture: (title, width, height, parts) => {
    const style = `width:${width / 16}rem;height:${height / 16}rem`;
    const inside = `<title>${title}</title>${parts.join("")}`;
    return `<svg viewBox="0 0 ${width} ${height}" style="${style}" role="img">${inside}</svg>`;
  },
};

// Arrow heads, once for the page: how far the tip stops before the end of its line, and those to a hermit open.
function arrowHeads() {
  const size = 'markerWidth="13" markerHeight="12" markerUnits="userSpaceOnUse" orient="auto"';
  const full = ["job", "note", "first", "second"].map((name) => [name, "M0 1L12 6L0 11z", `${name}head`]);
  const open = ["first", "second"].map((name) => [`${name}open`, "M1 2L11 6L1 10z", `${name}head open`]);
  const marker = (id, gap, shape, style) =>
    `<marker id="${id}" refX="${12 + gap}" refY="6" ${size}><path d="${shape}" class="${style}"/></marker>`;
  const heads = Object.entries({ mark: 6, node: 18, bare: -3 }).flatMap(([where, gap]) =>
    [...full, ...open].map(([name, shape, style]) => marker(name + where, gap, shape, style)));
  return `<svg width="0" height="0" aria-hidden="true"><defs>${heads.join("")}</defs></svg>`;
}

// ---- The sequence chart: time goes down, a row for each event

const ROW = 20, LEFT = 110, RIGHT = 390, SLOT = 9, SLOTS = 24, NEAR = 28, FAR = 36, TOP = 10;

// An item's way through the rows shown: where it is sent and where it is delivered, null where that is not shown.
function waysOf(events, first, underWay) {
  const delivered = events.filter(({ item, answer }) => item !== null && answer !== OCB.OCB_EARLY);
  const all = [
    ...delivered.map(({ item, line }) => ({ item, reached: line })),
    ...underWay.map((item) => ({ item, reached: null })),
  ];
  const shown = all.filter(({ item, reached }) => item.line >= first || reached >= first);
  shown.sort((one, other) => one.item.line - other.item.line || one.item.to - other.item.to);
  return shown.map(({ item, reached }) => ({ item, reached, sent: item.line >= first ? item.line : null }));
}

const side = (item) => (item.to > item.from ? 1 : -1);

// The slot of each way beside its sender's line, and how many there are by node and side. Ways in one slot follow each
// other.
function slotsOf(ways, first) {
  const taken = new Map();
  const slots = ways.map(({ item, sent, reached }) => {
    const start = sent ?? first - 1, key = `${item.from} ${side(item)}`;
    const ends = taken.get(key) ?? taken.set(key, []).get(key);
    const free = ends.findIndex((last) => last < start), slot = free < 0 ? ends.length : free;
    ends[slot] = reached ?? start;
    return slot % SLOTS;
  });
  return { slots, count: (node, way) => Math.min(taken.get(`${node} ${way}`)?.length ?? 0, SLOTS) };
}

// How far to the right each node's line is, and where the answers begin.
function columnsOf(size, count) {
  const least = Math.max(80, Math.floor(400 / size)), found = [LEFT + least / 2];
  for (let a = 0; a + 1 < size; a++) {
    const [right, left] = [count(a, 1), count(a + 1, -1)];
    const beside = 2 * NEAR + SLOT * (right + left), past = NEAR + FAR + SLOT * Math.max(right, left);
    found.push(found[a] + Math.max(least, beside, past));
  }
  return [found, found.at(-1) + least / 2];
}

// A line for each node, thick while it is busy.
function lanes(nodes, busyFirst, events, y, bottom) {
  return nodes.flatMap((x, node) => {
    const parts = [];
    let busy = busyFirst[node], from = 0;
    for (const event of [...events.filter((one) => one.node === node), null]) {
      const [now, at] = event === null ? [null, bottom] : [event.after[OCB.OCB_AT_BUSY], y(event.line)];
      if (now === busy) continue;
      parts.push(svg.line(x, from, x, at, busy ? "busy" : "idle"));
      [busy, from] = [now, at];
    }
    return parts;
  });
}

function wayWords({ item, reached }) {
  const so = reached === null ? "still under way" : `delivered in line ${reached}`;
  return `${item.kind} of line ${item.line}, ${item.from} to ${item.to}: ${so}`;
}

// An item's arrow; of one that is still under way its beginning, with a ring at the end.
function arrow(nodes, y, { item, sent, reached }, slot) {
  const pass = item.frame?.fields[FIELDS.pass];
  const name = item.frame === null ? item.kind : pass === 1 ? "first" : "second";
  const style = name + (item.frame?.earlier ? " again" : ""), hermit = item.frame?.to.indexOf(item.to) > 0;
  const out = side(item), x = nodes[item.from], down = x + out * (NEAR + SLOT * slot);
  const start = sent === null ? `M${down} 0` : `M${x} ${y(sent)}Q${down} ${y(sent)} ${down} ${y(sent) + 9}`;
  const title = wayWords({ item, reached });
  if (reached === null) {
    const [stroke, end] = sent === null ? [`${start}V9`, 9] : [start, y(sent) + 9];
    return svg.group(title, [svg.path(stroke, style), svg.circle(down, end, 3, style + " ring")]);
  }
  const end = y(reached), way = `${start}V${end - 9}Q${down} ${end} ${down + out * 9} ${end}H${nodes[item.to]}`;
  return svg.group(title, [svg.path(way, style, name + (hermit ? "openmark" : "mark"))]);
}

function markKind(event) {
  const named = {
    [OCB.OCB_EARLY]: "early",
    [OCB.OCB_WAITS]: "waits",
    [OCB.OCB_MOVED]: "moves on",
    [OCB.OCB_LEFT]: "leaves",
    [OCB.OCB_DROPPED]: "dropped",
  };
  return named[event.answer] ?? (isRefused(event.answer) ? "refused" : fellBack(event) ? "falls back" : "done");
}

function mark(kind, x, y) {
  return {
    "done": () => svg.circle(x, y, 5, "mark"),
    "waits": () => svg.circle(x, y, 5, "mark hollow"),
    "moves on": () => svg.path(`M${x - 6} ${y - 4}H${x + 6}L${x} ${y + 6}z`, "mark"),
    "falls back": () => svg.path(`M${x - 6} ${y + 4}H${x + 6}L${x} ${y - 6}z`, "mark"),
    "leaves": () => svg.box(x - 14, y - 3, 28, 6, "mark"),
    "early": () => svg.path(`M${x - 7} ${y}L${x} ${y - 7}L${x + 7} ${y}L${x} ${y + 7}z`, "mark hollow"),
    "dropped": () => svg.box(x - 5, y - 5, 10, 10, "mark hollow"),
    "refused": () => svg.path(`M${x - 6} ${y - 6}L${x + 6} ${y + 6}M${x - 6} ${y + 6}L${x + 6} ${y - 6}`, "cross"),
  }[kind]();
}

// An event's row: the script at the left, the mark, and the answer at the right.
function chartRow(nodes, right, y, event) {
  const is = stateOf(event.after), strong = event.frame?.earlier ? "strong" : "";
  const parts = [
    svg.box(0, y - ROW / 2, right + RIGHT, ROW, "strip"),
    svg.text(12, y + 5, event.line, "mono"),
    svg.text(48, y + 5, event.text, "mono"),
    mark(markKind(event), nodes[event.node], y),
    svg.text(right + 28, y + 5, event.node, `mono ${strong}`),
    svg.text(right + 68, y + 5, shortWords(event), strong),
    svg.text(right + 252, y + 5, `(${is.pass}, ${is.dimension}, ${is.flag})`, "mono"),
  ];
  const more = ` class="event" data-line="${event.line}"`;
  return svg.group(`line ${event.line}: ${eventWords(event)}`, parts, more);
}

// The titles of the chart's columns, the answers' being from right on.
function chartTitles(nodes, right) {
  const columns = [
    [12, "line"],
    [48, "script"],
    [right + 16, "node"],
    [right + 68, "answer"],
    [right + 252, "pass, dim, flag"],
  ];
  return [
    ...columns.map(([x, name]) => svg.text(x, 18, name, "strong")),
    ...nodes.map((x, node) => svg.text(x, 18, `node ${node}`, "strong middle")),
  ];
}

// The chart of the events up to the last stage, from a line on: the titles of its columns, and its rows.
function chartOf(stages, first) {
  const { size, items } = stages.at(-1), events = stages.slice(1).map((stage) => stage.event);
  const shown = events.slice(first - 2);
  const y = (line) => TOP + ROW / 2 + (line - first) * ROW, bottom = y(first + shown.length) + 6;
  const ways = waysOf(events, first, items), { slots, count } = slotsOf(ways, first);
  const [nodes, right] = columnsOf(size, count), width = right + RIGHT;
  const banded = shown.filter(({ line }) => line % 2 === 0);
  const busy = stages[first - 2].states.map((state) => state[OCB.OCB_AT_BUSY]);
  return [
    svg.picture("Columns of the chart", width, 26, chartTitles(nodes, right)),
    svg.picture("What has happened, a row for each event", width, bottom, [
      ...banded.map(({ line }) => svg.box(0, y(line) - ROW / 2, width, ROW, "band")),
      ...lanes(nodes, busy, shown, y, bottom),
      ...ways.map((way, at) => arrow(nodes, y, way, slots[at])),
      ...shown.map((event) => chartRow(nodes, right, y(event.line), event)),
    ]),
  ];
}

// What the strokes and the marks are.
function legend() {
  const sample = (names, head) => (x, y) => svg.line(x - 22, y, x + 22, y, names, head);
  const shape = (kind) => (x, y) => mark(kind, x, y);
  const ring = (x, y) => svg.line(x - 22, y, x + 16, y, "first") + svg.circle(x + 19, y, 3, "first ring");
  const entries = [
    [sample("job", "jobbare"), "job"],
    [sample("note", "notebare"), "note"],
    [sample("first", "firstbare"), "frame of pass 1"],
    [sample("second", "secondbare"), "frame of pass 2"],
    [sample("first again", "firstbare"), "frame sent again"],
    [sample("first", "firstopenbare"), "messenger's frame to the hermit"],
    [ring, "still under way"],
    [sample("busy"), "node is busy"],
    [sample("idle"), "node is idle"],
    [shape("done"), "done, or frame sent"],
    [shape("waits"), "waits"],
    [shape("moves on"), "moves on"],
    [shape("falls back"), "falls back"],
    [shape("leaves"), "leaves the cycle"],
    [shape("early"), "early: stays on its link"],
    [shape("dropped"), "late: dropped"],
    [shape("refused"), "refused: nothing changes"],
  ];
  const rows = Math.ceil(entries.length / 4);
  const parts = entries.flatMap(([draw, words], at) => {
    const x = 12 + Math.floor(at / rows) * 285, y = 14 + (at % rows) * 22;
    return [draw(x + 24, y), svg.text(x + 56, y + 5, words)];
  });
  return svg.picture("What the strokes and the marks are", 1150, rows * 22 + 10, parts);
}

// ---- Who talks to whom: a row for each dimension, runs as boxes; a node that is idle at that dimension is filled

// The frames of a dimension: between neighbours, and from a messenger to its hermit.
function partnerArrows(places, x, y) {
  return Array.from(places.entries()).flatMap(([node, [kind, other, hermit]]) => {
    const parts = [], peak = y - 40 - 18 * Math.abs(other - node);
    const curve = (from, to) =>
      svg.path(`M${x(from)} ${y}Q${(x(from) + x(to)) / 2} ${peak} ${x(to)} ${y}`, "first", "firstnode");
    if (kind > 1 && node < other) parts.push(curve(node, other), curve(other, node));
    if (kind === 3) parts.push(svg.line(x(node), y, x(hermit), y, "first", "firstopennode"));
    return parts;
  });
}

function partnerNode(stage, k, node, x, y) {
  const state = stateOf(stage.states[node]);
  const here = !state.busy && state.dimension === k ? ` in${state.pass}` : "";
  return [svg.circle(x, y, 15, `node${here}`), svg.text(x, y + 5, node, `strong middle${here}`)];
}

function partnersOf(library, stage) {
  const { size } = stage, all = stage.states.map((_, node) => node), shells = DATA.boards[size].sent.length;
  const column = Math.max(60, Math.min(120, Math.floor(960 / size))), x = (node) => 160 + column * node;
  const parts = [];
  let y = 0;
  for (let k = 0; k < shells; k++) {
    const places = all.map((node) => library.place(size, k, node));
    const neighbours = all.filter((node) => places[node][0] > 1);
    const runs = all.map((node) => runOf(library, size, k, node)).filter((nodes, node) => nodes[0] === node);
    y += 40 + 9 * Math.max(1, ...neighbours.map((node) => Math.abs(places[node][1] - node)));
    parts.push(svg.text(12, y + 5, `dimension ${k}`, "strong"));
    for (const run of runs) parts.push(svg.box(x(run[0]) - 24, y - 24, (run.length - 1) * column + 48, 48, "box", 10));
    parts.push(...partnerArrows(places, x, y));
    for (const node of all) parts.push(...partnerNode(stage, k, node, x(node), y));
    y += 34;
  }
  return svg.picture("Who talks to whom, dimension by dimension", x(size - 1) + 60, y, parts);
}
