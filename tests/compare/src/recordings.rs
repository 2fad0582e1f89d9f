//! Recordings to hold the library to: of every script, of random boards, and with something wrong.

use crate::recording_calls::{read, read_and_written, replay, write, written_and_read, REPLAY};
use crate::report::{same, Report};
use model::random::{lines, Habits, Random};
use model::recording::{record, Event, Recording, EVENT, SECTION_EVENTS};
use model::rehearsal::{lines_of, Line, PLACES};
use model::LONGEST;
use std::fs;
use std::path::Path;

/// So many places; odd ones have bytes behind them that are no whole place.
pub fn room(places: usize) -> usize {
    places * LONGEST + places % 2 * (LONGEST - 1)
}

/// The bytes that a recording would have if nothing were refused; what does not fit a byte or two is cut off.
pub fn laid(recording: &Recording) -> Vec<u8> {
    let mut offset = 2 + 4 * recording.sections.len();
    let mut bytes = vec![recording.nodes as u8, recording.sections.len() as u8];
    for section in &recording.sections {
        bytes.extend((offset as u16).to_le_bytes());
        bytes.extend((section.len() as u16).to_le_bytes());
        offset += EVENT * section.len();
    }
    bytes.extend(recording.event_bytes());
    bytes
}

/// A recording, good or not, read, written, and replayed with few places.
pub fn every(report: &mut Report, recording: &Recording) {
    let bytes = laid(recording);
    read_and_written(report, &bytes);
    written_and_read(report, recording.nodes, &recording.counts(), &recording.event_bytes());
    replay(report, &bytes, room(3));
}

// ---- Scripts

/// Each script with these places lent is recorded, and with these replayed.
const LENT: [usize; 5] = [PLACES, 0, 1, 2, 5];

/// The events of a recording in about as many sections as there may be.
fn in_many_sections(recording: &Recording) -> Recording {
    let events: Vec<Event> = recording.events().copied().collect();
    let most = events.len().div_ceil(30).max(1);
    let mut sections: Vec<Vec<Event>> = events.chunks(most).map(<[Event]>::to_vec).collect();
    sections.insert(sections.len() / 2, vec![]);
    sections.push(vec![]);
    Recording { nodes: recording.nodes, sections }
}

/// A recording that a replay plays to its end, with one answer after the other altered.
fn answers(report: &mut Report, recording: &Recording, room: usize) {
    let bytes = laid(recording);
    let body = bytes.len() - recording.event_bytes().len();
    for (position, event) in recording.events().enumerate() {
        let mut other = bytes.clone();
        other[body + EVENT * position + 3] = event.answer.wrapping_add(1 + position as u8 % 255);
        same("an answer altered", &replay(report, &other, room), &19, || format!("event {position}"));
        report.count("answers altered");
    }
}

fn script(report: &mut Report, text: &[u8]) {
    let (nodes, lines) = lines_of(text).expect("a script of the repository");
    for recorded in LENT {
        let recording = record(nodes, &lines, recorded, SECTION_EVENTS);
        for recording in [in_many_sections(&recording), recording] {
            let bytes = laid(&recording);
            read_and_written(report, &bytes);
            same("a script replayed", &replay(report, &bytes, room(recorded)), &0, || {
                format!("{recorded} places, {}", String::from_utf8_lossy(text))
            });
            for lent in LENT.iter().chain(&[PLACES - 1, PLACES + 1, PLACES + 90]) {
                replay(report, &bytes, room(*lent));
            }
        }
    }
    answers(report, &record(nodes, &lines, PLACES, SECTION_EVENTS), room(PLACES));
    answers(report, &in_many_sections(&record(nodes, &lines, 2, SECTION_EVENTS)), room(2));
    report.count("scripts recorded");
}

fn scripts(report: &mut Report) {
    let folder = Path::new(env!("CARGO_MANIFEST_DIR")).join("../../scripts");
    let entries = fs::read_dir(folder).expect("the scripts").map(|entry| entry.expect("an entry").path());
    let mut files: Vec<_> = entries.filter(|path| path.is_file()).collect();
    files.sort();
    for file in files {
        script(report, &fs::read(file).expect("a script"));
    }
}

// ---- Small recordings with every byte altered

/// The worked script, and one in several sections with a job, a note, frames to two receivers, and a wait.
const SMALL: [(&[u8], usize); 2] = [
    (b"nodes 2\ni 0\nb 0\ni 1\nd 0 1\nb 1\nb 1\nb 1\nd 1 0\nb 0\nb 0\nd 1 0\nb 0\nd 0 1\nb 1\n", SECTION_EVENTS),
    (b"nodes 3\ns 0 1\ni 2\nb 2\nb 2\nt 0 2\nd 0 1\ni 1\nb 1\nb 1\nd 0 2\n", 4),
];

/// Each byte as each other, cut at each length, and with bytes added.
fn altered(report: &mut Report, bytes: &[u8]) {
    let mut changed = bytes.to_vec();
    for at in 0..bytes.len() {
        for by in 1..=255 {
            changed[at] = bytes[at].wrapping_add(by);
            read(report, &changed, 33, bytes.len());
            replay(report, &changed, room(PLACES));
            replay(report, &changed, room(1));
            report.count("small recordings with a byte altered");
        }
        changed[at] = bytes[at];
        read_and_written(report, &bytes[..at]);
        replay(report, &bytes[..at], room(3));
    }
    for added in 1..=12 {
        for more in [[0; 12], [b'i', 0, 0, 0, b'i', 0, 0, 0, b'i', 0, 0, 0]] {
            let longer = [bytes, &more[..added]].concat();
            read_and_written(report, &longer);
            replay(report, &longer, room(3));
        }
    }
}

fn small(report: &mut Report) {
    for (script, most) in SMALL {
        let (nodes, lines) = lines_of(script).expect("a script");
        let mut recording = record(nodes, &lines, PLACES, most);
        if recording.sections.len() > 1 {
            recording.sections.insert(1, vec![]);
        }
        let bytes = laid(&recording);
        read_and_written(report, &bytes);
        altered(report, &bytes);
        broken_later(report, &bytes);
    }
}

/// An event that is none after one whose answer differs: 18, since no event runs before all are tested.
fn broken_later(report: &mut Report, bytes: &[u8]) {
    let nodes = bytes[0];
    let body = 2 + 4 * usize::from(bytes[1]);
    for differs in (body..bytes.len()).step_by(EVENT) {
        let mut other = bytes.to_vec();
        other[differs + 3] ^= 1;
        same("an answer altered", &replay(report, &other, room(3)), &19, || format!("byte {}", differs + 3));
        for broken in (differs + EVENT..bytes.len()).step_by(EVENT) {
            for (part, byte) in [(0, b'x'), (1, nodes), (2, nodes), (2, 255)] {
                let mut both = other.clone();
                both[broken + part] = byte;
                let answer = replay(report, &both, room(3));
                report.order(REPLAY, &[("18", 18, true), ("19", 19, true)], answer);
            }
        }
    }
}

// ---- Random boards

const EVEN: Habits = Habits { job: 3, note: 3, idle: 8, barrier: 18, deliver: 18, lose: 0, odd: 0 };
const SLOW: Habits = Habits { job: 40, note: 40, idle: 3, barrier: 20, deliver: 3, lose: 0, odd: 0 };

/// Lines in up to 32 sections cut anywhere, with the answers that so many places give.
fn cut(random: &mut Random, nodes: u32, lines: &[Line], places: usize) -> Recording {
    let whole = record(nodes, lines, places, lines.len().max(1)).sections.remove(0);
    let sections = 1 + random.below(32) as usize;
    let mut ends: Vec<usize> = (1..sections).map(|_| random.below(lines.len() as u32 + 1) as usize).collect();
    ends.extend([0, lines.len()]);
    ends.sort_unstable();
    let sections = ends.windows(2).map(|ends| whole[ends[0]..ends[1]].to_vec()).collect();
    Recording { nodes, sections }
}

/// A recording with one thing wrong, or two; most often in its head, its table or an event's first bytes.
fn spoilt(random: &mut Random, bytes: &[u8]) -> Vec<u8> {
    let mut bytes = bytes.to_vec();
    let end = if random.below(2) == 0 { bytes.len().min(40) } else { bytes.len() };
    let at = random.below(end as u32) as usize;
    match random.below(8) {
        0 => bytes.truncate(at),
        1 => bytes.extend(&[0; 9][..1 + at % 9]),
        2 => bytes[at] = bytes[at].wrapping_add(1 + random.below(4) as u8),
        3 => bytes[at] = bytes[at].wrapping_sub(1 + random.below(4) as u8),
        4 => bytes[at] = b"stdib"[random.below(5) as usize],
        5 => drop(bytes.drain(at..(at + 4).min(end))),
        6 => bytes.rotate_right(1 + at % 4),
        _ => bytes[at] = random.below(256) as u8,
    }
    bytes
}

fn random_board(report: &mut Report, random: &mut Random, nodes: u32, count: usize, habits: &Habits) {
    let lines = lines(random, nodes, count, habits);
    let places = [PLACES, PLACES, 0, 1, 2, 7, 60][random.below(7) as usize];
    let recording = cut(random, nodes, &lines, places);
    let bytes = laid(&recording);
    every(report, &recording);
    same("a recording replayed", &replay(report, &bytes, room(places)), &0, || format!("{places} places, {bytes:?}"));
    replay(report, &bytes, random.below(10 * LONGEST as u32) as usize);
    replay(report, &bytes, random.below(600 * LONGEST as u32) as usize);
    for _ in 0..8 {
        let other = spoilt(random, &bytes);
        read_and_written(report, &other);
        replay(report, &other, room(places));
        if !other.is_empty() {
            replay(report, &spoilt(random, &other), room(places));
        }
    }
    report.count("random boards recorded");
}

/// Bytes of small numbers and letters, which pass for the head of a recording now and then.
fn noise(report: &mut Report, random: &mut Random) {
    let bytes: Vec<u8> = (0..random.below(40))
        .map(|_| if random.below(3) == 0 { b"stdib"[random.below(5) as usize] } else { random.below(9) as u8 })
        .collect();
    read_and_written(report, &bytes);
    replay(report, &bytes, room(3));
    let events = bytes.len() as u32 / 4;
    let counts = [random.below(events + 1), random.below(3)];
    write(report, random.below(4), &counts, &bytes, bytes.len() + 10);
    write(report, 2, &[events], &bytes, bytes.len() + 6);
}

pub fn compare(report: &mut Report, random: &mut Random, scale: u64) {
    scripts(report);
    small(report);
    for round in 0..400 * scale {
        let count = random.below(400) as usize;
        random_board(report, random, 1 + round as u32 % 16, count, [&EVEN, &SLOW][round as usize / 16 % 2]);
    }
    for nodes in [1, 2, 5, 16] {
        for habits in [&EVEN, &SLOW] {
            random_board(report, random, nodes, 14_960, habits);
        }
    }
    for _ in 0..20_000 * scale {
        noise(report, random);
    }
}
