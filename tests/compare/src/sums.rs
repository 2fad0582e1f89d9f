//! Sums and stored numbers next to their limits: clause 3, in a barrier call and in the state test.

use crate::orders::{boundaries, fresh, PLACES};
use crate::report::{must, Report};
use crate::library::at;
use crate::{calls, library};
use model::node::{self, First, Node};
use model::{tree, FIELD_LIMIT, LONGEST, SENT_LIMIT, TAKEN_LIMIT};

/// A frame stored at a fresh idle node of two whose sums with the node's tallies are next to the limit, in both passes.
fn two(report: &mut Report) {
    for (sent, taken) in [(0, 0), (1, 0), (2, 2), (SENT_LIMIT, SENT_LIMIT), (7, TAKEN_LIMIT)] {
        for (over, under) in [(0, 0), (1, 1), (1, 0), (0, 1), (2, 2)] {
            let mut state = fresh(2, 0, 0, false);
            (state[at::BUSY], state[at::FLAG], state[at::sent(0)], state[at::taken(1, 0)]) = (0, 0, sent, taken);
            let totals = [FIELD_LIMIT - 1 - sent + over, FIELD_LIMIT - 1 - taken + under];
            let first = at::first(1, 0);
            state[first..first + 5].copy_from_slice(&[1, taken, sent, totals[0], totals[1]]);
            must(calls::barrier(report, &mut state, LONGEST));
            must(calls::barrier(report, &mut state, LONGEST));
            for (agreed, total) in [(0, 0), (1, 0), (0, 1)] {
                let mut state = state.clone();
                let numbers = [1, FIELD_LIMIT - agreed, FIELD_LIMIT - sent + total];
                let second = at::second(1, 0);
                state[second..second + 3].copy_from_slice(&numbers);
                must(calls::barrier(report, &mut state, LONGEST));
            }
            report.count("sums next to the limit");
        }
    }
}

/// The steps of a node in which it awaits a frame.
pub fn awaiting(board: u32, number: u32) -> Vec<u32> {
    let p = tree::dimension(board).expect("a board");
    (0..p).filter(|&k| tree::awaited(board, number, k).expect("a node").is_some()).collect()
}

/// An idle node at step k of pass 1 that agrees: one message sent and one taken in each shell from k up, and frames of
/// every step up to k, all 0 but for what meets shell k.
fn at_step(board: u32, number: u32, k: usize) -> Node {
    let mut state = node::fresh(board, number).expect("a node");
    (state.busy, state.dim, state.flag) = (false, k as u8, false);
    let p = tree::dimension(board).expect("a board") as usize;
    state.sent[k..p].fill(1);
    state.taken[k..p].fill(1);
    for step in awaiting(board, number) {
        state.first[step as usize].present = step as usize <= k;
    }
    (state.first[k].sent[k], state.first[k].taken[k]) = (1, 1);
    state
}

/// A barrier call, and the state test of the state that has gone on to the next dimension, if there is one.
fn step_and_next(report: &mut Report, p: usize, state: Node) {
    must(calls::barrier(report, &mut library::words_of(&state), LONGEST));
    if usize::from(state.dim) + 1 < p {
        let next = Node { dim: state.dim + 1, ..state };
        must(calls::idle(report, &mut library::words_of(&next)));
    }
    report.count("sums next to the limit");
}

/// The numbers of a frame that clause 3 adds to own sums: shells above k, then both totals.
pub fn added(frame: &mut First, k: usize, p: usize) -> Vec<&mut u32> {
    let shells = frame.sent[k + 1..p].iter_mut().chain(&mut frame.taken[k + 1..p]);
    shells.chain([&mut frame.total_sent, &mut frame.total_taken]).collect()
}

/// At step k one sum after the other next to the limit, all else agreeing.
fn each(report: &mut Report, p: usize, state: Node) {
    let k = usize::from(state.dim);
    let shells = 2 * (p - k - 1);
    for place in 0..shells + 2 {
        let own = if place < shells { 1 } else { (p - k) as u32 };
        for number in FIELD_LIMIT - own - 1..=FIELD_LIMIT - own + 1 {
            let mut state = state;
            *added(&mut state.first[k], k, p)[place] = number;
            step_and_next(report, p, state);
        }
    }
}

/// Shell k itself is in no sum of clause 3: own and frame's numbers for it are each at the limit, and agree.
fn own_shell(report: &mut Report, p: usize, state: Node, lower: usize) {
    let (mut state, k) = (state, usize::from(state.dim));
    (state.first[lower].sent[k], state.first[lower].taken[k]) = (FIELD_LIMIT - 1, FIELD_LIMIT - 1);
    (state.first[k].sent[k], state.first[k].taken[k]) = (FIELD_LIMIT, FIELD_LIMIT);
    step_and_next(report, p, state);
}

/// An idle node, its frame of the first step sent, that has stored a frame of zeros for each step of both passes.
fn frames_ahead(report: &mut Report, board: u32, number: u32) {
    let mut state = at_step(board, number, 0);
    (state.sent, state.taken, state.first[0]) = Default::default();
    for step in awaiting(board, number) {
        state.first[step as usize].present = true;
        state.second[step as usize].present = true;
    }
    boundaries(report, &library::words_of(&state));
}

pub fn compare(report: &mut Report) {
    two(report);
    for (board, number) in PLACES {
        let p = tree::dimension(board).expect("a board") as usize;
        let steps = awaiting(board, number);
        for &k in &steps {
            let state = at_step(board, number, k as usize);
            each(report, p, state);
            if k > steps[0] {
                own_shell(report, p, state, steps[0] as usize);
            }
        }
        frames_ahead(report, board, number);
    }
    frames_ahead(report, 1, 0);
}
