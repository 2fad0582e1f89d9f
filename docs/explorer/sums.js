// The own sums of a node at its step, and the clauses of that step with the numbers that each compares. The library
// decides; this shows with what. That both agree is tested: a frame that is sent has these sums, and a wait names the
// first clause that fails.

const added = (list) => list.reduce((sum, number) => sum + number, 0);

// The sums for a step: by shell from the dimension up, and the totals. In pass 2 the total sent alone.
function sumsOf(state) {
  const below = (frames) => frames.slice(0, state.dimension).filter((frame) => frame !== null);
  const first = below(state.first), [sent, taken] = [added(state.sent), added(state.taken)];
  if (state.pass === 2) return { totalSent: sent + added(below(state.second).map((frame) => frame.totalSent)) };
  return {
    sent: state.sent.map((own, shell) => own + added(first.map((frame) => frame.sent[shell]))),
    taken: state.taken.map((own, shell) => own + added(first.map((frame) => frame.taken[shell]))),
    totalSent: sent + added(first.map((frame) => frame.totalSent)),
    totalTaken: taken + added(first.map((frame) => frame.totalTaken)),
  };
}

// The clauses of a node's step in their order, each with what it compares: [number, words, number, words, number].
// Without a stored frame there are none to compare. Clause 3, a sum above the limit, fails in no run from fresh nodes
// and is left out.
function clausesOf(state) {
  const own = sumsOf(state), k = state.dimension, last = k + 1 === state.first.length;
  const frame = state.pass === 1 ? state.first[k] : state.second[k];
  if (frame === null) return [];
  const both = (name) => own[name] + frame[name];
  const all = state.pass === 1 ? [
    [1, "this side has sent the other", own.sent[k], "the other side has taken", frame.taken[k]],
    [2, "the other side has sent this one", frame.sent[k], "this side has taken", own.taken[k]],
    last && [4, "the whole board has sent", both("totalSent"), "it has taken", both("totalTaken")],
  ] : [
    [5, "T here is", state.total, "T in the frame is", frame.total],
    last && [6, "the whole board has sent by now", both("totalSent"), "T is", state.total],
  ];
  return all.filter((clause) => clause);
}
