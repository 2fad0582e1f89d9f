//! Runs (rule H1 to rule H5): a board of P nodes with its links and its history, and a checker for rule P4
//! and rule P5.

use crate::node::{self, Answer, Barrier, Node, Work};
use crate::{no, LONGEST};

/// What an item carries: a job or a note, with its sender's phase byte, or a frame.
#[derive(Clone, Debug, PartialEq, Eq, Hash)]
pub enum Load {
    Work { work: Work, message: u64, byte: u8 },
    Frame { bytes: Vec<u8> },
}

/// An item under way, with the phase of its sender when it was sent, counted without end (rule H5).
#[derive(Clone, Debug, PartialEq, Eq, Hash)]
pub struct Item {
    pub from: u32,
    pub to: u32,
    pub phase: u64,
    pub load: Load,
}

/// A work message, job or note, that was sent and not taken.
#[derive(Clone, Copy, Debug, PartialEq, Eq, Hash)]
pub struct Message {
    pub number: u64,
    pub phase: u64,
}

/// The events of a run. `room` is the length of the lent buffer; `item` is a place in `links`.
#[derive(Clone, Copy, Debug, PartialEq, Eq)]
pub enum Event {
    Send { work: Work, at: u32, to: u32 },
    Idle { at: u32 },
    Barrier { at: u32, room: usize },
    Deliver { from: u32, to: u32 },
    Lose { item: usize },
}

/// What an event gave: the answer of its call, or nothing where there was no call.
#[derive(Clone, Debug, PartialEq, Eq)]
pub enum Outcome {
    Call(Answer),
    Step(Barrier),
    Nothing,
}

/// A board with its history. It starts with fresh nodes and empty links (rule H1).
#[derive(Clone, Debug)]
pub struct Board {
    pub nodes: Vec<Node>,
    /// How many barrier calls of each node have left, counted without end.
    pub phases: Vec<u64>,
    /// Busy by history.
    pub busy: Vec<bool>,
    /// All links in one list, oldest first; a link is the part with its two ends.
    pub links: Vec<Item>,
    /// The messages whose take was not done, lost ones too.
    pub untaken: Vec<Message>,
    pub messages: u64,
    pub lost: bool,
}

/// What an event did that rule P4 speaks of.
#[derive(Clone, Copy, Debug, PartialEq, Eq)]
enum Deed {
    Sent { at: usize, phase: u64 },
    Took { work: Work, at: usize, phase: u64 },
    Left { at: usize, phase: u64 },
    Other,
}

/// What the checker has to know of the time before the event.
struct Past {
    phases: Vec<u64>,
    busy: Vec<bool>,
    untaken: Vec<Message>,
}

impl Board {
    /// Wants `size` from 1 to `NODES`.
    pub fn new(size: u32) -> Board {
        let fresh = |number| node::fresh(size, number).expect("a node of a board");
        Board {
            nodes: (0..size).map(fresh).collect(),
            phases: vec![0; size as usize],
            busy: vec![true; size as usize],
            links: vec![],
            untaken: vec![],
            messages: 0,
            lost: false,
        }
    }

    /// Plays an event and asserts every point of rule P4, and rule P5.
    pub fn play(&mut self, event: Event) -> Outcome {
        let (outcome, faults) = self.play_and_tell(event);
        assert!(faults.is_empty(), "{faults:?} after {event:?} on {self:?}");
        outcome
    }

    /// Plays an event and tells which points of rule P4 fail, and whether rule P5 does.
    pub fn play_and_tell(&mut self, event: Event) -> (Outcome, Vec<String>) {
        let past = self.past();
        let (outcome, deed) = self.happen(event);
        let mut faults = self.first_half(&past, deed);
        faults.extend(self.second_half());
        (outcome, faults)
    }

    /// The oldest phase of a node.
    pub fn oldest(&self) -> u64 {
        *self.phases.iter().min().expect("a board has a node")
    }

    fn past(&self) -> Past {
        let busy = self.nodes.iter().map(|node| node.busy).collect();
        Past { phases: self.phases.clone(), busy, untaken: self.untaken.clone() }
    }
}

// ---------------------------------------------------------------------------------------------
// The events

impl Board {
    fn happen(&mut self, event: Event) -> (Outcome, Deed) {
        match event {
            Event::Send { work, at, to } => self.send(work, at, to),
            Event::Idle { at } => self.idle(at as usize),
            Event::Barrier { at, room } => self.barrier(at as usize, room),
            Event::Deliver { from, to } => self.deliver(from, to),
            Event::Lose { item } => self.lose(item),
        }
    }

    /// A send that is done puts the job or note last on its link (rule H3).
    fn send(&mut self, work: Work, at: u32, to: u32) -> (Outcome, Deed) {
        let place = at as usize;
        let phase = self.phases[place];
        let byte = self.nodes[place].phase;
        let (after, answer) = node::send(self.nodes[place], to);
        self.nodes[place] = after;
        if answer != Answer::Done {
            return (Outcome::Call(answer), Deed::Other);
        }
        let message = self.messages;
        self.messages += 1;
        self.untaken.push(Message { number: message, phase });
        self.links.push(Item { from: at, to, phase, load: Load::Work { work, message, byte } });
        (Outcome::Call(answer), Deed::Sent { at: place, phase })
    }

    fn idle(&mut self, at: usize) -> (Outcome, Deed) {
        let (after, answer) = node::idle(self.nodes[at]);
        self.nodes[at] = after;
        if answer == Answer::Done {
            self.busy[at] = false;
        }
        (Outcome::Call(answer), Deed::Other)
    }

    fn barrier(&mut self, at: usize, room: usize) -> (Outcome, Deed) {
        let mut buffer = vec![0; room];
        let phase = self.phases[at];
        let (after, answer) = node::barrier(self.nodes[at], &mut buffer);
        self.nodes[at] = after;
        let deed = match &answer {
            Barrier::Sent { receivers, length } => {
                self.post(at as u32, receivers, &buffer[..*length]);
                Deed::Other
            }
            Barrier::Left => {
                self.phases[at] += 1;
                self.busy[at] = true;
                Deed::Left { at, phase }
            }
            _ => Deed::Other,
        };
        (Outcome::Step(answer), deed)
    }

    /// The written bytes go last on the link to each receiver (rule H3).
    fn post(&mut self, from: u32, receivers: &[u32], bytes: &[u8]) {
        let phase = self.phases[from as usize];
        for &to in receivers {
            self.links.push(Item { from, to, phase, load: Load::Frame { bytes: bytes.to_vec() } });
        }
    }

    /// The oldest item of a link is handed to its receiver; an early one stays (rule H4).
    fn deliver(&mut self, from: u32, to: u32) -> (Outcome, Deed) {
        let Some(oldest) = self.links.iter().position(|item| item.from == from && item.to == to) else {
            return (Outcome::Nothing, Deed::Other);
        };
        let item = self.links[oldest].clone();
        let (after, answer) = match &item.load {
            Load::Work { work, byte, .. } => node::take(self.nodes[to as usize], *work, from, *byte),
            Load::Frame { bytes } => node::frame_in(self.nodes[to as usize], bytes),
        };
        self.nodes[to as usize] = after;
        if answer != Answer::Refused(no::EARLY) {
            self.links.remove(oldest);
        }
        (Outcome::Call(answer), self.after_delivery(&item, answer))
    }

    fn after_delivery(&mut self, item: &Item, answer: Answer) -> Deed {
        match item.load {
            Load::Work { work, message, .. } if answer == Answer::Done => {
                let at = item.to as usize;
                self.untaken.retain(|other| other.number != message);
                self.busy[at] = self.busy[at] || work == Work::Job;
                Deed::Took { work, at, phase: item.phase }
            }
            _ => Deed::Other,
        }
    }

    /// An item goes off its link without a call (rule H2).
    fn lose(&mut self, item: usize) -> (Outcome, Deed) {
        if item < self.links.len() {
            self.links.remove(item);
            self.lost = true;
        }
        (Outcome::Nothing, Deed::Other)
    }
}

// ---------------------------------------------------------------------------------------------
// Rule P4 and rule P5

impl Board {
    /// Rule P4, and that states say what the history does (rule P6 for the phase).
    fn first_half(&self, past: &Past, deed: Deed) -> Vec<String> {
        let mut faults = vec![];
        for at in 0..self.nodes.len() {
            faults.extend(self.state_says_the_history(at));
            faults.extend(self.woken_by_a_job(past, deed, at));
        }
        match deed {
            Deed::Sent { at, phase } => {
                faults.extend(sent_by_busy(past, at));
                faults.extend(nobody_has_left(past, phase));
            }
            Deed::Took { phase, .. } => faults.extend(nobody_has_left(past, phase)),
            Deed::Left { at, phase } => faults.extend(may_leave(past, at, phase)),
            Deed::Other => {}
        }
        faults
    }

    /// The phase is the low byte of the count, and busy is what the history says.
    fn state_says_the_history(&self, at: usize) -> Option<String> {
        let node = &self.nodes[at];
        let same = u64::from(node.phase) == self.phases[at] % 256 && node.busy == self.busy[at];
        (!same).then(|| format!("the state of {at} is not what its history gives"))
    }

    /// Only the take of a job makes an idle node busy, unless it leaves.
    fn woken_by_a_job(&self, past: &Past, deed: Deed, at: usize) -> Option<String> {
        let woken = !past.busy[at] && self.nodes[at].busy && self.phases[at] == past.phases[at];
        let took = matches!(deed, Deed::Took { work: Work::Job, at: taker, .. } if taker == at);
        (woken && !took).then(|| format!("{at} woke without a job taken"))
    }

    /// Rule P5: without a loss, some node of the oldest phase goes on.
    fn second_half(&self) -> Option<String> {
        if self.lost {
            return None;
        }
        let oldest = self.oldest();
        let goes_on = |at: usize| {
            self.phases[at] == oldest
                && (self.nodes[at].busy || self.something_comes(at, oldest) || self.would_go_on(at))
        };
        (!(0..self.nodes.len()).any(goes_on)).then(|| "the board sticks".to_string())
    }

    fn something_comes(&self, at: usize, phase: u64) -> bool {
        self.links.iter().any(|item| item.to as usize == at && item.phase == phase)
    }

    fn would_go_on(&self, at: usize) -> bool {
        let (_, answer) = node::barrier(self.nodes[at], &mut [0; LONGEST]);
        matches!(answer, Barrier::Sent { .. } | Barrier::Moved | Barrier::Left)
    }
}

/// A send is done at busy nodes only.
fn sent_by_busy(past: &Past, at: usize) -> Option<String> {
    (!past.busy[at]).then(|| format!("{at} sent work while idle"))
}

/// No message of a phase, job or note, is sent or taken once a node has left it.
fn nobody_has_left(past: &Past, phase: u64) -> Option<String> {
    let left = past.phases.iter().any(|&other| other > phase);
    left.then(|| format!("work of phase {phase} was sent or taken after a node left it"))
}

/// A node leaves only where all jobs and notes of its phase are taken, all nodes in it idle, and none is behind.
fn may_leave(past: &Past, at: usize, phase: u64) -> Vec<String> {
    let mut faults = vec![];
    if past.untaken.iter().any(|message| message.phase == phase) {
        faults.push(format!("{at} left phase {phase} while a message of it was untaken"));
    }
    for other in 0..past.phases.len() {
        if past.phases[other] == phase && past.busy[other] {
            faults.push(format!("{at} left phase {phase} while {other} was busy in it"));
        }
        if past.phases[other] < phase {
            faults.push(format!("{at} left phase {phase} before {other} reached it"));
        }
    }
    faults
}

#[cfg(test)]
mod tests {
    use super::*;

    /// No run of the model has an idle node that a note wakes, so what the checker says of one is asked here.
    #[test]
    fn the_checker_notices_a_note_that_wakes() {
        let mut board = Board::new(2);
        board.happen(Event::Idle { at: 0 });
        let past = board.past();
        (board.nodes[0].busy, board.busy[0]) = (true, true);
        let faults = |work| board.first_half(&past, Deed::Took { work, at: 0, phase: 0 });
        assert_eq!(faults(Work::Job), Vec::<String>::new());
        assert_eq!(faults(Work::Note), ["0 woke without a job taken"]);
    }
}
