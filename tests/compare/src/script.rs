//! A run as a script: lines of rule S3, and named lines for what these cannot say.
//!
//! - `b A room N`: a barrier call with a buffer of N bytes, where N is not the length of the longest frame.
//! - `lose A B N`: the N-th item on the link from A to B, the oldest being the 0-th, is lost.
//! - `s A B` and `t A B` with B not below P. The rehearsal program answers 17 to all of these.

use model::board::{Board, Event};
use model::node::Work;
use model::LONGEST;

/// A run from a fresh board on.
#[derive(Clone)]
pub struct Run {
    pub size: u32,
    pub events: Vec<Event>,
}

/// The line of an event that happens to a board; none where an item is lost that is not there.
fn line_of(board: &Board, event: Event) -> Option<String> {
    Some(match event {
        Event::Send { work: Work::Job, at, to } => format!("s {at} {to}"),
        Event::Send { work: Work::Note, at, to } => format!("t {at} {to}"),
        Event::Idle { at } => format!("i {at}"),
        Event::Barrier { at, room: LONGEST } => format!("b {at}"),
        Event::Barrier { at, room } => format!("b {at} room {room}"),
        Event::Deliver { from, to } => format!("d {from} {to}"),
        Event::Lose { item } => {
            let lost = board.links.get(item)?;
            let ends = (lost.from, lost.to);
            let older = board.links[..item].iter().filter(|other| (other.from, other.to) == ends).count();
            format!("lose {} {} {older}", ends.0, ends.1)
        }
    })
}

/// The event of a line, for the board that it happens to.
pub fn event_of(board: &Board, line: &str) -> Option<Event> {
    let parts: Vec<&str> = line.split(' ').collect();
    let number = |at: usize| parts.get(at)?.parse::<u32>().ok();
    let node = |at: usize| number(at).filter(|&node| (node as usize) < board.nodes.len());
    Some(match (parts[0], parts.len()) {
        ("s", 3) => Event::Send { work: Work::Job, at: node(1)?, to: number(2)? },
        ("t", 3) => Event::Send { work: Work::Note, at: node(1)?, to: number(2)? },
        ("i", 2) => Event::Idle { at: node(1)? },
        ("b", 2) => Event::Barrier { at: node(1)?, room: LONGEST },
        ("b", 4) if parts[2] == "room" => Event::Barrier { at: node(1)?, room: number(3)?.min(128) as usize },
        ("d", 3) => Event::Deliver { from: node(1)?, to: node(2)? },
        ("lose", 4) => {
            let ends = (node(1)?, node(2)?);
            let mut on_link = (0..board.links.len()).filter(|&at| (board.links[at].from, board.links[at].to) == ends);
            Event::Lose { item: on_link.nth(number(3)? as usize)? }
        }
        _ => return None,
    })
}

/// The lines of a run.
pub fn lines_of(run: &Run) -> Vec<String> {
    let mut board = Board::new(run.size);
    let mut lines = vec![format!("nodes {}", run.size)];
    for &event in &run.events {
        lines.extend(line_of(&board, event));
        board.play_and_tell(event);
    }
    lines
}

/// Whether the rehearsal program takes the script.
pub fn is_rehearsal(run: &Run, lines: &[String]) -> bool {
    let plain = |event: &Event| match *event {
        Event::Send { to, .. } => to < run.size,
        Event::Barrier { room, .. } => room == LONGEST,
        Event::Lose { .. } => false,
        _ => true,
    };
    let bytes: usize = lines.iter().map(|line| line.len() + 1).sum();
    run.size <= 16 && bytes <= 4_096 && run.events.iter().all(plain)
}

/// The run without events that alter nothing on the model's board; the last one stays.
fn without_idle_steps(run: &Run) -> Run {
    let mut board = Board::new(run.size);
    let mut short = Run { events: vec![], ..*run };
    for (at, &event) in run.events.iter().enumerate() {
        let before = (board.nodes.clone(), board.links.len());
        board.play_and_tell(event);
        if at + 1 == run.events.len() || before != (board.nodes.clone(), board.links.len()) {
            short.events.push(event);
        }
    }
    short
}

/// How many events are played at most to shorten a run.
const PATIENCE: usize = 1_000_000;

/// The run without events that its difference does not need. `differs` tells the event at which a run differs.
pub fn shorten(run: &Run, differs: impl Fn(&Run) -> Option<usize>) -> Run {
    let busy = without_idle_steps(run);
    let mut short = if differs(&busy).is_some() { busy } else { run.clone() };
    let (mut played, mut part) = (0, short.events.len() / 2);
    while part > 0 {
        let mut at = 0;
        while at < short.events.len() && played < PATIENCE {
            let mut tried = short.clone();
            tried.events.drain(at..(at + part).min(short.events.len()));
            played += tried.events.len();
            match differs(&tried) {
                Some(last) => {
                    tried.events.truncate(last + 1);
                    short = tried;
                }
                None => at += part,
            }
        }
        part /= 2;
    }
    short
}
