//! Runs of whole boards: the model plays an event and checks rule P4 and rule P5, and the library plays it beside.

use crate::{calls, orders};
use crate::library::{self, at, Words};
use crate::report::{held, Difference, Origin, Report};
use crate::script::{self, Run};
use model::board::{Board, Event, Load};
use model::random::{self, event, Habits, Random};
use model::LONGEST;

/// A board of the model, the library's states beside it, and what happened so far.
pub struct Pair {
    pub board: Board,
    pub states: Vec<Words>,
    run: Run,
}

impl Pair {
    /// Fresh nodes.
    pub fn new(size: u32) -> Pair {
        let fresh = |number| {
            let mut words = vec![0; library::words_for(size)];
            library::fresh(&mut words, size, number);
            words
        };
        let states = (0..size).map(fresh).collect();
        Pair { board: Board::new(size), states, run: Run { size, events: vec![] } }
    }

    fn oldest_of(&self, from: u32, to: u32) -> Option<Load> {
        let item = self.board.links.iter().find(|item| item.from == from && item.to == to);
        item.map(|item| item.load.clone())
    }

    /// The event at the library's state. The acting node and its answer; each call is held to the model's by itself.
    fn beside(&mut self, report: &mut Report, event: Event) -> Result<Option<(u32, u32)>, Difference> {
        let (node, answer) = match event {
            Event::Send { at, to, .. } => (at, calls::send(report, &mut self.states[at as usize], to)?),
            Event::Idle { at } => (at, calls::idle(report, &mut self.states[at as usize])?),
            Event::Barrier { at, room } => {
                let state = &mut self.states[at as usize];
                (at, report.during(Origin::Run, |report| calls::barrier(report, state, room))?)
            }
            Event::Deliver { from, to } => {
                let state = &mut self.states[to as usize].clone();
                let answer = match self.oldest_of(from, to) {
                    Some(Load::Work { work, byte, .. }) => calls::take(report, state, work, from, byte)?,
                    Some(Load::Frame { bytes }) => calls::frame_in(report, state, &bytes)?,
                    None => return Ok(None),
                };
                self.states[to as usize] = state.clone();
                (to, answer)
            }
            Event::Lose { .. } => return Ok(None),
        };
        Ok(Some((node, answer)))
    }

    /// Plays an event on both sides. The acting node and its answer, if there was a call.
    pub fn step(&mut self, report: &mut Report, event: Event) -> Result<Option<(u32, u32)>, Difference> {
        self.run.events.push(event);
        let acted = self.beside(report, event)?;
        let (_, faults) = self.board.play_and_tell(event);
        held("the claim about runs", &Vec::<String>::new(), &faults, || "the script".to_string())?;
        if let Some((at, _)) = acted {
            let model = library::words_of(&self.board.nodes[at as usize]);
            held("a state of the run", &self.states[at as usize], &model, || "the script".to_string())?;
        }
        report.count("events of runs");
        Ok(acted)
    }

    fn play(&mut self, report: &mut Report, event: Event) {
        if let Err(difference) = self.step(report, event) {
            fail(&self.run, difference);
        }
    }
}

/// The first event at which a run differs, and how.
fn first_difference(run: &Run) -> Option<(usize, Difference)> {
    let (mut pair, mut report) = (Pair::new(run.size), Report::default());
    for (at, &event) in run.events.iter().enumerate() {
        if let Err(difference) = pair.step(&mut report, event) {
            return Some((at, difference));
        }
    }
    None
}

/// Ends the program with the shortest script found.
fn fail(run: &Run, difference: Difference) -> ! {
    difference.print();
    eprintln!("after {} events on {} nodes, being shortened", run.events.len(), run.size);
    let short = script::shorten(run, |run| first_difference(run).map(|(at, _)| at));
    let lines = script::lines_of(&short);
    eprintln!("---- script, for 'bash tests/compare/run replay'");
    for line in &lines {
        eprintln!("{line}");
    }
    eprintln!("---- end of the script, with the difference at its last line");
    if !script::is_rehearsal(&short, &lines) {
        eprintln!("The rehearsal program does not take it: it has more than 16 nodes or 4,096 bytes, or lines that");
        eprintln!("no script may have (b .. room, lose, s or t to a node that the board lacks).");
    }
    if let Some((_, difference)) = first_difference(&short) {
        difference.print();
    }
    std::process::exit(1)
}

// Half the messages are notes.
const EVEN: Habits = Habits { job: 3, note: 3, idle: 8, barrier: 18, deliver: 18, lose: 0, odd: 2 };
const SLOW: Habits = Habits { job: 2, note: 2, idle: 5, barrier: 20, deliver: 3, lose: 0, odd: 1 };
const LOSSY: Habits = Habits { job: 3, note: 3, idle: 8, barrier: 18, deliver: 18, lose: 2, odd: 2 };

/// A run of so many events; its states, now and then, are handed to every call, whole and with one word changed.
fn run(report: &mut Report, random: &mut Random, size: u32, events: u64, habits: &Habits) {
    let mut pair = Pair::new(size);
    for number in 0..events {
        let happens = event(random, &pair.board, habits);
        pair.play(report, happens);
        if number % 23 == 0 {
            hand(report, random, &pair);
        }
    }
    finish(report, &pair);
}

fn finish(report: &mut Report, pair: &Pair) {
    report.count("runs");
    report.add("phases left by all", pair.board.oldest());
    if pair.board.oldest() > 255 {
        report.count("runs past phase 255");
    }
}

/// States of a run handed to every call, with frames under way in it.
fn hand(report: &mut Report, random: &mut Random, pair: &Pair) {
    let state = &pair.states[random.below(pair.states.len() as u32) as usize];
    let frames: Vec<Vec<u8>> = (pair.board.links.iter().rev())
        .filter_map(|item| match &item.load {
            Load::Frame { bytes } => Some(bytes.clone()),
            Load::Work { .. } => None,
        })
        .take(3)
        .collect();
    calls::every(report, random, state, &frames);
    for _ in 0..3 {
        let spoilt = calls::changed(random, state);
        calls::every(report, random, &spoilt, &frames);
        let worse = calls::changed(random, &spoilt);
        calls::every(report, random, &worse, &frames);
    }
}

/// What a node of a board in use does next: sends some jobs and notes while busy, then idles, then calls the barrier.
fn turn(random: &mut Random, board: &Board, at: u32) -> Event {
    let size = board.nodes.len() as u32;
    if !board.nodes[at as usize].busy {
        return Event::Barrier { at, room: LONGEST };
    }
    if size > 1 && random.below(3) == 0 {
        let work = random::work(random);
        return Event::Send { work, at, to: (at + 1 + random.below(size - 1)) % size };
    }
    Event::Idle { at }
}

/// How many frames words hold.
fn stored(words: &Words) -> u32 {
    library::marks(words[at::NODES]).iter().map(|&mark| words[mark]).sum()
}

/// Whole phases with work: all nodes take a turn, then each item under way is delivered or, so often in 4, is slow.
/// The state with the most stored frames of the first phase has each of its numbers set to each boundary.
fn phases(report: &mut Report, random: &mut Random, size: u32, last: u64, slow: u32) {
    let mut pair = Pair::new(size);
    let mut fullest = pair.states[0].clone();
    while pair.board.oldest() < last {
        for at in 0..size {
            let happens = turn(random, &pair.board, at);
            pair.play(report, happens);
        }
        let ends: Vec<(u32, u32)> = pair.board.links.iter().map(|item| (item.from, item.to)).collect();
        for (from, to) in ends {
            if random.below(4) >= slow {
                pair.play(report, Event::Deliver { from, to });
            }
        }
        if random.below(64) == 0 {
            hand(report, random, &pair);
        }
        if pair.board.oldest() == 0 {
            fullest = pair.states.iter().chain([&fullest]).max_by_key(|words| stored(words)).expect("a node").clone();
        }
    }
    orders::boundaries(report, &fullest);
    calls::lengths(report, random, &fullest);
    finish(report, &pair);
}

/// Every board goes past phase 255.
pub fn compare(report: &mut Report, random: &mut Random, scale: u64) {
    for size in 1..=16 {
        run(report, random, size, 6_000 * scale, &EVEN);
        run(report, random, size, 3_000 * scale, &SLOW);
        run(report, random, size, 1_500 * scale, &LOSSY);
        phases(report, random, size, 300 * scale, 1 + size % 2);
    }
    for (size, last) in [(31, 280), (64, 270), (95, 262), (96, 262)] {
        run(report, random, size, 2_000 * scale, &EVEN);
        phases(report, random, size, last * scale, 1);
    }
}
