//! A fixed-seed generator, and random events for a board.

use crate::board::{Board, Event};
use crate::node::Work;
use crate::rehearsal::Line;
use crate::LONGEST;

/// Splitmix64.
#[derive(Clone, Debug)]
pub struct Random {
    state: u64,
}

impl Random {
    pub fn new(seed: u64) -> Random {
        Random { state: seed }
    }

    pub fn draw(&mut self) -> u64 {
        self.state = self.state.wrapping_add(0x9e37_79b9_7f4a_7c15);
        let mut z = self.state;
        z = (z ^ (z >> 30)).wrapping_mul(0xbf58_476d_1ce4_e5b9);
        z = (z ^ (z >> 27)).wrapping_mul(0x94d0_49bb_1331_11eb);
        z ^ (z >> 31)
    }

    /// A number below `bound`, which is at least 1.
    pub fn below(&mut self, bound: u32) -> u32 {
        (self.draw() % u64::from(bound)) as u32
    }

    /// The index of a weight, chosen in proportion to the weights.
    pub fn weighted(&mut self, weights: &[u32]) -> usize {
        let mut left = self.below(weights.iter().sum());
        for (index, &weight) in weights.iter().enumerate() {
            if left < weight {
                return index;
            }
            left -= weight;
        }
        unreachable!("the weights add up to more than what is left")
    }
}

/// How often each kind of event comes; `job` and `note` are sends. `odd` events have arguments that call for
/// a refusal.
#[derive(Clone, Copy, Debug)]
pub struct Habits {
    pub job: u32,
    pub note: u32,
    pub idle: u32,
    pub barrier: u32,
    pub deliver: u32,
    pub lose: u32,
    pub odd: u32,
}

/// A random event for this board.
pub fn event(random: &mut Random, board: &Board, habits: &Habits) -> Event {
    let Habits { job, note, idle, barrier, deliver, lose, odd } = *habits;
    let size = board.nodes.len() as u32;
    let at = random.below(size);
    match random.weighted(&[job, note, idle, barrier, deliver, lose, odd]) {
        0 => Event::Send { work: Work::Job, at, to: random.below(size) },
        1 => Event::Send { work: Work::Note, at, to: random.below(size) },
        2 => Event::Idle { at },
        3 => Event::Barrier { at, room: LONGEST },
        4 => delivery(random, board, at),
        5 => Event::Lose { item: random.below(1 + board.links.len() as u32) as usize },
        _ => odd_event(random, size, at),
    }
}

/// A delivery on the link of a random item, so that links with items come first.
fn delivery(random: &mut Random, board: &Board, at: u32) -> Event {
    if board.links.is_empty() {
        return Event::Deliver { from: random.below(board.nodes.len() as u32), to: at };
    }
    let item = &board.links[random.below(board.links.len() as u32) as usize];
    Event::Deliver { from: item.from, to: item.to }
}

/// A job or a note, the one as often as the other.
pub fn work(random: &mut Random) -> Work {
    Work::BOTH[random.below(2) as usize]
}

fn odd_event(random: &mut Random, size: u32, at: u32) -> Event {
    let work = work(random);
    match random.below(5) {
        0 => Event::Send { work, at, to: at },
        1 => Event::Send { work, at, to: size + random.below(300) },
        2 => Event::Send { work, at, to: u32::MAX - random.below(2) },
        3 => Event::Deliver { from: random.below(size), to: at },
        _ => Event::Barrier { at, room: random.below(LONGEST as u32 + 9) as usize },
    }
}

/// Random lines of a script, deliveries mostly of items that are under way where no place is missing. Wants
/// habits without losses and odd events, for which a script has no lines.
pub fn lines(random: &mut Random, size: u32, count: usize, habits: &Habits) -> Vec<Line> {
    let mut board = Board::new(size);
    let mut lines = vec![];
    for _ in 0..count {
        let event = event(random, &board, habits);
        board.play_and_tell(event);
        lines.push(match event {
            Event::Send { work, at, to } => Line::Send { work, a: at, b: to },
            Event::Deliver { from, to } => Line::Deliver { a: from, b: to },
            Event::Idle { at } => Line::Idle { a: at },
            Event::Barrier { at, .. } => Line::Barrier { a: at },
            Event::Lose { .. } => unreachable!("no habit of theirs"),
        });
    }
    lines
}
