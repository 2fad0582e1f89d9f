//! Orders and boundaries of refusals: for each call, all ways in which its conditions can be met together.

use crate::report::{must, same, Refusal, Report};
use crate::{calls, frames, library};
use library::{at, Words};
use model::frame::{stated_length, Fields};
use model::node::Work;
use model::{tree, FIELD_LIMIT, LONGEST, NODES, SENT_LIMIT, TAKEN_LIMIT};

/// Boards and nodes: a neighbour, a messenger and a hermit, one alone in dimension 0, and boards of every dimension.
pub const PLACES: [(u32, u32); 10] =
    [(2, 0), (3, 2), (5, 2), (5, 3), (6, 2), (16, 9), (31, 15), (64, 27), (95, 77), (96, 47)];

/// Numbers of nodes that no board has: none, and more than there may be, with the dimension of the largest board too.
const NO_BOARDS: [u32; 6] = [0, NODES + 1, 128, 129, 256, u32::MAX];

/// Differences of phases with something to tell: now, early, foreign, late.
const DIFFERENCES: [u8; 6] = [0, 1, 2, 128, 254, 255];

/// A fresh node in a phase; where it is bad, T is 1 in pass 1, and all else can still be told.
pub fn fresh(board: u32, number: u32, phase: u8, bad: bool) -> Words {
    let mut words: Words = vec![0; library::words_for(board)];
    same("fresh", &library::fresh(&mut words, board, number), &0, || format!("board {board}, node {number}"));
    words[at::PHASE] = u32::from(phase);
    words[at::TOTAL] = u32::from(bad);
    words
}

/// Another node, no node, and the node itself.
fn others(board: u32, number: u32) -> [u32; 4] {
    [(number + 1) % board, board, u32::MAX, number]
}

/// Tallies that add up to a total: half in the first shell, and the rest in the last.
fn tally(state: &mut Words, place: impl Fn(usize, usize) -> usize, total: u32) {
    let p = tree::dimension(state[at::NODES]).expect("a board") as usize;
    state[place(p, 0)] = total / 2;
    state[place(p, p - 1)] += total - total / 2;
}

fn tally_sent(state: &mut Words, total: u32) {
    tally(state, |_, m| at::sent(m), total);
}

fn tally_taken(state: &mut Words, total: u32) {
    tally(state, at::taken, total);
}

/// Messages taken, all that there can be, do not matter to a send.
fn send(report: &mut Report, board: u32, number: u32) {
    for other in others(board, number) {
        for bits in 0..8 {
            let (bad, idle) = (bits & 1 == 1, bits & 2 == 2);
            let mut state = fresh(board, number, 0, bad);
            state[at::BUSY] = u32::from(!idle);
            tally_sent(&mut state, SENT_LIMIT - 1 + (bits >> 2));
            tally_taken(&mut state, TAKEN_LIMIT);
            let order = [
                ("13", 13, bad),
                ("2", 2, other >= board),
                ("3", 3, other == number),
                ("4", 4, idle),
                ("5", 5, bits >> 2 == 1),
            ];
            let answer = must(calls::send(report, &mut state, other));
            report.order("send", &order, answer);
        }
    }
}

/// Messages sent, all that there can be, do not matter to a take; neither does whether the node is busy.
fn take(report: &mut Report, board: u32, number: u32, work: Work) {
    for other in others(board, number) {
        for difference in DIFFERENCES {
            for bits in 0..8 {
                let (bad, idle, phase) = (bits & 1 == 1, bits & 2 == 2, 253 + difference % 3);
                let mut state = fresh(board, number, phase, bad);
                state[at::BUSY] = u32::from(!idle);
                tally_sent(&mut state, SENT_LIMIT);
                tally_taken(&mut state, TAKEN_LIMIT - 1 + (bits >> 2));
                let order = [
                    ("13", 13, bad),
                    ("2", 2, other >= board),
                    ("3", 3, other == number),
                    ("7", 7, difference == 1),
                    ("8", 8, difference > 1),
                    ("6", 6, bits >> 2 == 1),
                ];
                let answer = must(calls::take(report, &mut state, work, other, phase.wrapping_add(difference)));
                report.order(calls::name_of(work), &order, answer);
            }
        }
    }
}

/// The barrier call of a node that would send its first frame, with buffers next to the frame's length.
fn barrier(report: &mut Report, board: u32, number: u32) {
    let p = tree::dimension(board).expect("a board");
    let sends = !tree::receivers(board, number, 0).expect("a node").is_empty();
    let length = stated_length(p, 1, 0);
    for room in [0, 1, length - 1, length, length + 1, 100] {
        for bits in 0..4 {
            let (bad, busy) = (bits & 1 == 1, bits & 2 == 2);
            let mut state = fresh(board, number, 0, bad);
            state[at::BUSY] = u32::from(busy);
            let order = [("13", 13, bad), ("12", 12, busy), ("14", 14, sends && room < length)];
            let answer = must(calls::barrier(report, &mut state, room));
            report.order("barrier", &order, answer);
        }
    }
}

/// The parts that a frame is put together from.
#[derive(Clone, Copy)]
struct Parts {
    pass: u8,
    dim: u8,
    sender: u8,
    phase: u8,
    largest: u32,
    longer: i32,
}

impl Parts {
    /// The length that the frame should have, where its pass and dimension are some of a board's.
    fn stated(&self, p: u32) -> Option<usize> {
        let stands = (self.pass == 1 || self.pass == 2) && u32::from(self.dim) < p;
        stands.then(|| stated_length(p, u32::from(self.pass), u32::from(self.dim)))
    }

    /// Its bytes: numbers of 0, and in the middle the largest. At least three stay.
    fn bytes(&self, p: u32) -> Vec<u8> {
        let length = self.stated(p).unwrap_or(12);
        let mut bytes = vec![self.pass, self.phase, self.dim, self.sender];
        bytes.resize(length.max(12), 0);
        let middle = 4 + (length - 4) / 8 * 4;
        bytes[middle..middle + 4].copy_from_slice(&self.largest.to_le_bytes());
        bytes.resize((length as i32 + self.longer).max(3) as usize, 0);
        bytes
    }

    /// What the frame reader looks at, in its order; the sender is the fourth byte.
    fn reading(&self, board: u32, p: u32) -> [Refusal; 5] {
        let (bytes, stated) = (self.bytes(p), self.stated(p));
        let short = bytes.len() < 4;
        let large = self.largest > FIELD_LIMIT && self.longer >= 0;
        [
            ("9 (under 4)", 9, short),
            ("10 (pass, k)", 10, stated.is_none()),
            ("9", 9, stated.is_some_and(|length| length != bytes.len())),
            ("10 (numbers)", 10, large),
            ("2", 2, !short && u32::from(self.sender) >= board),
        ]
    }
}

/// Every choice of parts on a board, with the node awaited, the node itself and others as senders.
fn all_parts(board: u32, number: u32, p: u32, phase: u8, mut each: impl FnMut(Parts)) {
    let awaited = |k: u32| tree::awaited(board, number, k).ok().flatten().unwrap_or((number + 1) % board) as u8;
    for pass in [0, 1, 2, 3, 255] {
        for dim in [0, p as u8 - 1, p as u8, 255] {
            let senders = [awaited(u32::from(dim)), number as u8, ((number + 2) % board) as u8, (board - 1) as u8, 255];
            for sender in senders {
                for difference in DIFFERENCES {
                    for largest in [0, FIELD_LIMIT, FIELD_LIMIT + 1, u32::MAX] {
                        for longer in [-99, -1, 0, 1, 4] {
                            let phase = phase.wrapping_add(difference);
                            each(Parts { pass, dim, sender, phase, largest, longer });
                        }
                    }
                }
            }
        }
    }
}

fn frame_in(report: &mut Report, board: u32, number: u32) {
    let p = tree::dimension(board).expect("a board");
    all_parts(board, number, p, 255, |parts| {
        let (k, sender) = (u32::from(parts.dim), u32::from(parts.sender));
        let difference = parts.phase.wrapping_sub(255);
        let awaited = tree::awaited(board, number, k).ok().flatten();
        let bytes = parts.bytes(p);
        let short = bytes.len() < 4;
        for bad in [false, true] {
            let mut order = vec![("13", 13, bad)];
            order.extend(parts.reading(board, p));
            order.push(("3", 3, !short && sender == number));
            order.push(("11", 11, !short && awaited != Some(sender)));
            order.push(("7", 7, difference == 1));
            order.push(("8", 8, (2..=254).contains(&difference)));
            let mut state = fresh(board, number, 255, bad);
            let answer = must(calls::frame_in(report, &mut state, &bytes));
            report.order("frame in", &order, answer);
        }
    });
}

fn reader(report: &mut Report, board: u32, number: u32) {
    let p = tree::dimension(board).expect("a board");
    all_parts(board, number, p, 0, |parts| {
        let mut order = vec![("1", 1, false)];
        order.extend(parts.reading(board, p));
        let answer = frames::read(report, board, &parts.bytes(p));
        report.order("frame reader", &order, answer);
        for none in NO_BOARDS {
            order[0].2 = true;
            let answer = frames::read(report, none, &parts.bytes(p));
            report.order("frame reader", &order, answer);
        }
    });
}

fn writer(report: &mut Report, board: u32, number: u32) {
    let p = tree::dimension(board).expect("a board");
    for (pass, dim) in [(0, 0), (1, 0), (1, p - 1), (1, p), (2, 0), (2, p - 1), (2, 255), (3, 0)] {
        for sender in [number, board - 1, board, 255] {
            for total_sent in [0, FIELD_LIMIT, FIELD_LIMIT + 1, u32::MAX] {
                let fields = Fields { pass, dim, sender, total_sent, ..Fields::default() };
                let stands = (pass == 1 || pass == 2) && dim < p;
                let length = if stands { stated_length(p, pass, dim) } else { 12 };
                for room in [0, length - 1, length, length + 1] {
                    let mut order = [
                        ("1", 1, false),
                        ("10 (pass, k)", 10, !stands),
                        ("10 (numbers)", 10, total_sent > FIELD_LIMIT),
                        ("2", 2, sender >= board),
                        ("14", 14, room < length),
                    ];
                    let (answer, _) = frames::write(report, board, &fields, room);
                    report.order("frame writer", &order, answer);
                    for none in NO_BOARDS {
                        order[0].2 = true;
                        let (answer, _) = frames::write(report, none, &fields, room);
                        report.order("frame writer", &order, answer);
                    }
                }
            }
        }
    }
}

/// Every phase of a node with every phase of a message and of a frame.
fn phases(report: &mut Report) {
    for (node, item) in (0..=255).flat_map(|node| (0..=255).map(move |item| (node, item))) {
        let state = fresh(2, 0, node, false);
        for work in Work::BOTH {
            must(calls::take(report, &mut state.clone(), work, 1, item));
        }
        let parts = Parts { pass: 1, dim: 0, sender: 1, phase: item, largest: 0, longer: 0 };
        must(calls::frame_in(report, &mut state.clone(), &parts.bytes(1)));
        report.count("pairs of phases");
    }
}

/// A valid state with each of its numbers, one after the other, set to each boundary.
pub fn boundaries(report: &mut Report, state: &Words) {
    let limits = [2, NODES, 128, 255, 256, SENT_LIMIT, TAKEN_LIMIT, FIELD_LIMIT, u32::MAX - 1];
    for place in 0..state.len() {
        for number in limits.iter().flat_map(|&limit| [limit - 1, limit, limit + 1]).chain([0]) {
            let mut changed = state.clone();
            changed[place] = number;
            must(calls::idle(report, &mut changed.clone()));
            must(calls::barrier(report, &mut changed, LONGEST + 4));
            report.count("states with a number at a boundary");
        }
    }
}

pub fn compare(report: &mut Report) {
    for (board, number) in PLACES {
        send(report, board, number);
        for work in Work::BOTH {
            take(report, board, number, work);
        }
        barrier(report, board, number);
        frame_in(report, board, number);
        reader(report, board, number);
        writer(report, board, number);
    }
    phases(report);
}
