//! Waits at which several clauses fail at once: which combinations there are at each kind of position, and states built
//! for each of them. Library and model name the lowest-numbered clause (rule N17).

use crate::calls;
use crate::library::{self, at, Words};
use crate::report::{must, same, Origin, Report, Wait};
use crate::sums::{added, awaiting};
use model::node::{self, First, Node, Second, Sums};
use model::random::Random;
use model::tree::{self, Place};
use model::FIELD_LIMIT;
use std::collections::HashSet;

/// For each kind of position the clauses that can fail at once, a digit for each: on any state that passes the state
/// test, and in a run. On no such state can fail:
///
/// - 0 with another one: where no frame is stored, no other is tried (rule N17).
/// - 1 and 2 in pass 2, 4 elsewhere than in the last dimension of pass 1, 5 in pass 1, 6 elsewhere than in the last
///   dimension of pass 2: the step does not have the clause (rule N15).
/// - 3 without 6 in the last dimension of pass 2: both look at one sum. Where it is above N · S, so that 3 fails, it is
///   not T, which is at most N · S (rule R5).
///
/// All else can. The totals of a frame are not tied to its tallies, so that 1 and 2 say nothing of 3 and 4. In the last
/// dimension of pass 1, 4 fails alone where the totals differ within the limit, and 3 where both are above it by the
/// same, which takes own sums, sent and taken, of at least 1.
///
/// In a run, losses included, every frame has the sums of its sender, and so there cannot fail besides:
///
/// - 3: a node sends at most S messages in a phase and each is taken once, so that no sum is above N · S.
/// - 1, 2 or 4 alone in the last dimension of pass 1: at both sides 1 and 2 held for the shells below, so that the totals
///   differ by what the numbers of 1 differ by, less what those of 2 do.
const TABLE: [(&str, &str, &str); 4] = [
    ("pass 1, before the last dimension", "0 1 2 3 12 13 23 123", "0 1 2 12"),
    ("pass 1, last dimension", "0 1 2 3 4 12 13 14 23 24 34 123 124 134 234 1234", "0 12 14 24 124"),
    ("pass 2, before the last dimension", "0 3 5 35", "0 5"),
    ("pass 2, last dimension", "0 5 6 36 56 356", "0 5 6 56"),
];

/// The table's combinations for a kind of position.
fn combinations(kind: &str, origin: Origin) -> Vec<Vec<u8>> {
    let (_, any, run) = TABLE.iter().find(|(name, ..)| *name == kind).expect("a kind of position");
    let told = if origin == Origin::Run { run } else { any };
    told.split(' ').map(|digits| digits.bytes().map(|digit| digit - b'0').collect()).collect()
}

fn dims(state: &Node) -> usize {
    tree::dimension(state.board).expect("a board") as usize
}

/// The kind of a state's position.
fn kind_of(state: &Node) -> &'static str {
    let last = usize::from(state.dim) + 1 == dims(state);
    TABLE[2 * usize::from(state.pass - 1) + usize::from(last)].0
}

/// The clauses that fail at a state's position, by the model.
fn failing(state: &Node) -> Vec<u8> {
    node::failing(state, state.pass, u32::from(state.dim))
}

/// What the report keeps of a wait.
pub fn wait_of(state: &Node, named: u32) -> Wait {
    (kind_of(state), failing(state), named)
}

/// The wait as it has to be, naming the lowest of its clauses; none where these cannot fail at once.
pub fn expected(wait: &Wait, origin: Origin) -> Option<Wait> {
    let (kind, failing, _) = wait;
    let lowest = failing.iter().copied().min().map(u32::from)?;
    combinations(kind, origin).contains(failing).then(|| (*kind, failing.clone(), lowest))
}

/// The combinations that no state was built for, at some place.
pub fn missed(report: &Report) -> Vec<String> {
    let rows = TABLE.iter().flat_map(|(kind, ..)| Origin::BUILT.map(|place| (*kind, place)));
    let all = rows.flat_map(|(kind, place)| combinations(kind, place).into_iter().map(move |set| (kind, place, set)));
    let never = all.filter(|(kind, place, set)| report.waits(&(*kind, set.clone(), u32::from(set[0])), *place) == 0);
    never.map(|(kind, place, set)| format!("{}, {kind}: clauses {set:?} never at once", place.title())).collect()
}

/// How a state is built: all sums of its step are at the limit before clauses are made to fail; frames of later steps
/// are stored; numbers that should be another's are one above it, or else one below; and which sum of clause 3 is above
/// the limit.
#[derive(Clone, Copy)]
struct Way {
    full: bool,
    ahead: bool,
    above: bool,
    sum: usize,
}

impl Way {
    fn shift(&self, number: &mut u32) {
        *number = if self.above { *number + 1 } else { *number - 1 };
    }
}

/// The ways for so many sums. What is at the limit is not made one more.
fn ways(sums: usize) -> impl Iterator<Item = Way> {
    let way = |n| Way { full: n & 1 == 1, ahead: n & 2 == 2, above: n & 4 == 4, sum: n / 8 };
    (0..8 * sums).map(way).filter(|way| !(way.full && way.above))
}

fn narrow(sum: u64) -> u32 {
    u32::try_from(sum).expect("a sum within the limit")
}

/// The numbers of a frame that clause 3 adds to own sums, each with its own sum.
fn summed<'a>(frame: &'a mut First, own: &Sums, k: usize, p: usize) -> Vec<(&'a mut u32, u32)> {
    let shells = own.sent[k + 1..p].iter().chain(&own.taken[k + 1..p]);
    let own = shells.chain([&own.total_sent, &own.total_taken]).map(|&sum| narrow(sum));
    added(frame, k, p).into_iter().zip(own.collect::<Vec<_>>()).collect()
}

/// Stores a pass 1 frame with which its step agrees: it has sent what this side has taken, and the other way. A full one
/// brings all sums of clause 3 up to the limit.
fn store_first(state: &mut Node, k: usize, full: bool) {
    let (own, p) = (node::own_sums(state, k as u32), dims(state));
    let (sent, taken) = (own.taken.map(narrow), own.sent.map(narrow));
    let (total_sent, total_taken) = (narrow(own.total_taken), narrow(own.total_sent));
    state.first[k] = First { present: true, sent, taken, total_sent, total_taken };
    if full {
        summed(&mut state.first[k], &own, k, p).into_iter().for_each(|(number, own)| *number = FIELD_LIMIT - own);
    }
}

/// Stores a pass 2 frame with which its step agrees: nothing was sent since its pass 1 frame.
fn store_second(state: &mut Node, k: usize, full: bool) {
    let room = FIELD_LIMIT - narrow(node::own_sum_pass_2(state, k as u32));
    let total_sent = if full { room } else { state.first[k].total_sent };
    state.second[k] = Second { present: true, t: state.t, total_sent };
}

/// Stores, for every later step, a frame whose numbers are as large as can be.
fn store_ahead(state: &mut Node) {
    let (k, p) = (u32::from(state.dim), dims(state));
    let largest = Second { present: true, t: FIELD_LIMIT, total_sent: FIELD_LIMIT };
    for step in awaiting(state.board, state.number) {
        let at = step as usize;
        if (1, step) > (state.pass, k) {
            let frame = &mut state.first[at];
            (frame.present, frame.total_sent, frame.total_taken) = (true, FIELD_LIMIT, FIELD_LIMIT);
            frame.sent[at..p].fill(FIELD_LIMIT);
            frame.taken[at..p].fill(FIELD_LIMIT);
        }
        if (2, step) > (state.pass, k) {
            state.second[at] = largest;
        }
    }
}

/// An idle node that looks at a step and would move on: messages sent and taken in every shell, and frames stored up to
/// that step.
fn agreeing(fresh: Node, pass: u8, k: usize, full: bool) -> Node {
    let p = dims(&fresh);
    let mut state = Node { busy: false, pass, dim: k as u8, flag: false, ..fresh };
    state.sent[..p].fill(2);
    state.taken[..p].fill(3);
    let (steps, last) = (awaiting(fresh.board, fresh.number), if pass == 1 { k } else { p - 1 });
    for step in steps.iter().map(|&step| step as usize).filter(|&step| step <= last) {
        store_first(&mut state, step, full && step == last);
    }
    if pass == 2 {
        state.t = narrow(node::own_sums(&state, last as u32).total_sent) + state.first[last].total_sent;
        let confirmed = steps.iter().map(|&step| step as usize).filter(|&step| step <= k);
        confirmed.for_each(|step| store_second(&mut state, step, full && step == k));
    }
    state
}

/// Makes clauses of pass 1 fail, all of them by the frame.
fn spoil_first(state: &mut Node, clauses: &[u8], way: Way) {
    let (k, p) = (usize::from(state.dim), dims(state));
    let (own, frame) = (node::own_sums(state, k as u32), &mut state.first[k]);
    let fails = |clause: u8| clauses.contains(&clause);
    if fails(1) {
        way.shift(&mut frame.taken[k]);
    }
    if fails(2) {
        way.shift(&mut frame.sent[k]);
    }
    if fails(4) && !fails(3) {
        way.shift(&mut frame.total_sent);
    }
    // Clause 4 holds in the last dimension only where both totals are above the limit.
    let all = k + 1 == p && !fails(4);
    let sums = summed(frame, &own, k, p).into_iter().enumerate();
    for (_, (number, own)) in sums.filter(|(sum, _)| fails(3) && (all || *sum == way.sum)) {
        *number = FIELD_LIMIT + 1 - own;
    }
}

/// Makes clauses of pass 2 fail. In the last dimension 6 fails where 3 does.
fn spoil_second(state: &mut Node, clauses: &[u8], way: Way) {
    let k = usize::from(state.dim);
    let own = narrow(node::own_sum_pass_2(state, k as u32));
    let frame = &mut state.second[k];
    if clauses.contains(&5) {
        way.shift(&mut frame.t);
    }
    if clauses.contains(&3) {
        frame.total_sent = FIELD_LIMIT + 1 - own;
    } else if clauses.contains(&6) {
        way.shift(&mut frame.total_sent);
    }
}

/// A state in which these clauses fail, and no other.
fn built(fresh: Node, pass: u8, k: usize, clauses: &[u8], way: Way) -> Node {
    let mut state = agreeing(fresh, pass, k, way.full);
    match (clauses, pass) {
        ([0], 1) => state.first[k] = First::default(),
        ([0], _) => state.second[k] = Second::default(),
        (_, 1) => spoil_first(&mut state, clauses, way),
        _ => spoil_second(&mut state, clauses, way),
    }
    if way.ahead {
        store_ahead(&mut state);
    }
    state
}

/// The node's place at its step.
fn place(state: &Node) -> Origin {
    match tree::place(state.board, state.number, u32::from(state.dim)).expect("a node") {
        Place::Neighbour { .. } => Origin::Neighbour,
        Place::Messenger { .. } => Origin::Messenger,
        Place::Hermit { .. } => Origin::Hermit,
        Place::Alone => unreachable!("a step that awaits a frame"),
    }
}

/// A barrier call that waits because of these clauses. A hermit, which sends nothing, looks with flag 1 too.
fn check(report: &mut Report, state: &Node, clauses: &[u8]) {
    same("clauses made to fail", &failing(state), &clauses.to_vec(), || format!("{state:?}"));
    let place = place(state);
    let flags: &[bool] = if place == Origin::Hermit { &[false, true] } else { &[false] };
    for &flag in flags {
        let mut words = library::words_of(&Node { flag, ..*state });
        let answer = must(report.during(place, |report| calls::barrier(report, &mut words, 0)));
        same("a wait", &answer, &21, || format!("{state:?}"));
    }
}

/// The states at a step in which these clauses fail, each once.
fn states(fresh: Node, pass: u8, k: usize, clauses: &[u8]) -> Vec<Node> {
    let (sums, mut seen) = (2 * (dims(&fresh) - k), HashSet::new());
    ways(sums).map(|way| built(fresh, pass, k, clauses, way)).filter(|state| seen.insert(*state)).collect()
}

/// Every combination of the table at a step, built in every way.
fn position(report: &mut Report, fresh: Node, pass: u8, k: usize) {
    for clauses in combinations(kind_of(&Node { pass, dim: k as u8, ..fresh }), Origin::Other) {
        for state in states(fresh, pass, k, &clauses) {
            check(report, &state, &clauses);
        }
    }
}

/// A state with the numbers of its step's frame changed at random, near what agrees and near the limit.
fn disturbed(random: &mut Random, state: &Node) -> Words {
    let (k, p) = (usize::from(state.dim), dims(state));
    let (first, second) = (at::first(p, k), at::second(p, k));
    let numbers = if state.pass == 1 { first + 1..second } else { second + 1..second + 3 };
    let mut words = library::words_of(state);
    for word in &mut words[numbers] {
        *word = match random.below(8) {
            0 => word.saturating_sub(1),
            1 => FIELD_LIMIT.min(*word + 1),
            2 => 0,
            3 => FIELD_LIMIT,
            _ => *word,
        };
    }
    words
}

/// How many disturbed states are tried at a step.
const TRIES: usize = 40;

/// Whatever clauses fail, calls::barrier looks for them in the table.
fn search(report: &mut Report, random: &mut Random, fresh: Node, pass: u8, k: usize) {
    for number in 0..TRIES {
        let state = agreeing(fresh, pass, k, number % 2 == 0);
        must(calls::barrier(report, &mut disturbed(random, &state), 0));
    }
}

/// All nodes of small boards, and of the others some and those in the middle.
fn nodes() -> impl Iterator<Item = Node> {
    let some = |board: u32| (0..board).filter(move |node| board <= 16 || node % 7 == 0 || node.abs_diff(board / 2) < 2);
    let boards = [2, 3, 5, 8, 16, 31, 64, 65, 95, 96].into_iter();
    boards.flat_map(move |board| some(board).map(move |number| node::fresh(board, number).expect("a node")))
}

pub fn compare(report: &mut Report, random: &mut Random) {
    for fresh in nodes() {
        for (pass, k) in awaiting(fresh.board, fresh.number).into_iter().flat_map(|k| [(1, k), (2, k)]) {
            position(report, fresh, pass, k as usize);
            search(report, random, fresh, pass, k as usize);
        }
    }
}
