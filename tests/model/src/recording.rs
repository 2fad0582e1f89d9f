//! Recordings of a board and their replay (rule K1 to rule K9): a reader and a writer, each undoing the other,
//! a recorder, and the replay, which compares each answer with the recorded one.

use crate::node::Work;
use crate::rehearsal::{self, Header, Line, Stage, PLACES};
use crate::{no, LONGEST};

/// The most bytes of a recording.
pub const RECORDING_LIMIT: usize = 60_000;

/// The most nodes of a recorded board.
pub const RECORDED_NODES: u32 = 16;

/// The most sections.
pub const SECTIONS: usize = 32;

/// The most events that the recorder puts into a section (rule K9).
pub const SECTION_EVENTS: usize = 500;

/// Byte 0 and byte 1.
const HEAD: usize = 2;

/// The bytes of a section in the table of contents.
const ENTRY: usize = 4;

/// The bytes of an event.
pub const EVENT: usize = 4;

/// A line that was played: its letter, its one or two node numbers (0 where there is no second), and its
/// answer. Any bytes can be held; `line` tells whether they are an event of a board.
#[derive(Clone, Copy, Debug, PartialEq, Eq)]
pub struct Event {
    pub letter: u8,
    pub first: u8,
    pub second: u8,
    pub answer: u8,
}

/// A node count, and sections of events (rule K1). What is held need not stand (`stands`).
#[derive(Clone, Debug, PartialEq, Eq)]
pub struct Recording {
    pub nodes: u32,
    pub sections: Vec<Vec<Event>>,
}

/// What is wrong with a recording: any of these gives 18 (rule K2).
#[derive(Clone, Copy, Debug, PartialEq, Eq, PartialOrd, Ord)]
pub enum Fault {
    /// No room for the node count, the number of sections and the table.
    Short,
    /// A body that does not begin where the table or the body before it ends.
    Offset,
    /// A body that goes on after the end of the bytes.
    Beyond,
    /// Bytes after the last body.
    Behind,
    /// For the writer: counts that add up to another number of events than there are.
    Counts,
    Long,
    Nodes,
    Sections,
    Letter,
    /// A node number that is not below the node count.
    Number,
    /// A second number that should be 0.
    Second,
}

/// Why a recording is not read, not written, or not replayed to its end.
#[derive(Clone, Copy, Debug, PartialEq, Eq)]
pub enum Refusal {
    Broken(Fault),
    /// What is lent to fill is too short.
    Room,
    /// The first event whose answer differs, counted from 0 over all sections.
    Differs(u32),
}

impl Refusal {
    pub fn number(&self) -> u8 {
        match self {
            Refusal::Broken(_) => no::RECORDING,
            Refusal::Room => no::BUFFER,
            Refusal::Differs(_) => no::DIFFERS,
        }
    }
}

// ---------------------------------------------------------------------------------------------
// Events

impl Event {
    fn of_bytes(bytes: &[u8]) -> Event {
        Event { letter: bytes[0], first: bytes[1], second: bytes[2], answer: bytes[3] }
    }

    pub fn bytes(&self) -> [u8; EVENT] {
        [self.letter, self.first, self.second, self.answer]
    }

    /// The event of a line with its answer.
    pub fn of_line(line: Line, answer: u8) -> Event {
        let (letter, a, b) = match line {
            Line::Send { work: Work::Job, a, b } => (b's', a, b),
            Line::Send { work: Work::Note, a, b } => (b't', a, b),
            Line::Deliver { a, b } => (b'd', a, b),
            Line::Idle { a } => (b'i', a, 0),
            Line::Barrier { a } => (b'b', a, 0),
        };
        Event { letter, first: a as u8, second: b as u8, answer }
    }

    /// The line of an event on a board of so many nodes (rule K6). The answer may be any byte.
    pub fn line(&self, nodes: u32) -> Result<Line, Fault> {
        let (a, b) = (u32::from(self.first), u32::from(self.second));
        let line = match self.letter {
            b's' => Line::Send { work: Work::Job, a, b },
            b't' => Line::Send { work: Work::Note, a, b },
            b'd' => Line::Deliver { a, b },
            b'i' => Line::Idle { a },
            b'b' => Line::Barrier { a },
            _ => return Err(Fault::Letter),
        };
        let one_number = matches!(line, Line::Idle { .. } | Line::Barrier { .. });
        if a >= nodes || (!one_number && b >= nodes) {
            return Err(Fault::Number);
        }
        if one_number && b != 0 {
            return Err(Fault::Second);
        }
        Ok(line)
    }
}

// ---------------------------------------------------------------------------------------------
// Reader and writer

impl Recording {
    /// All events in order.
    pub fn events(&self) -> impl Iterator<Item = &Event> {
        self.sections.iter().flatten()
    }

    /// How many events each section has.
    pub fn counts(&self) -> Vec<u32> {
        self.sections.iter().map(|section| section.len() as u32).collect()
    }

    /// The bytes of all events.
    pub fn event_bytes(&self) -> Vec<u8> {
        self.events().flat_map(Event::bytes).collect()
    }

    /// The number of its bytes.
    pub fn length(&self) -> usize {
        HEAD + ENTRY * self.sections.len() + EVENT * self.events().count()
    }

    /// The test that reader and writer share (rule K2).
    pub fn stands(&self) -> Result<(), Fault> {
        if self.length() > RECORDING_LIMIT {
            return Err(Fault::Long);
        }
        if self.nodes == 0 || self.nodes > RECORDED_NODES {
            return Err(Fault::Nodes);
        }
        if self.sections.is_empty() || self.sections.len() > SECTIONS {
            return Err(Fault::Sections);
        }
        for event in self.events() {
            event.line(self.nodes)?;
        }
        Ok(())
    }

    /// A recording from its node count, how many events each section has, and the bytes of all events.
    pub fn of_parts(nodes: u32, counts: &[u32], events: &[u8]) -> Result<Recording, Fault> {
        let told: u64 = counts.iter().map(|&count| u64::from(count)).sum();
        if told * EVENT as u64 != events.len() as u64 {
            return Err(Fault::Counts);
        }
        let mut rest = events;
        let mut sections = vec![];
        for &count in counts {
            let (body, after) = rest.split_at(EVENT * count as usize);
            sections.push(body.chunks(EVENT).map(Event::of_bytes).collect());
            rest = after;
        }
        Ok(Recording { nodes, sections })
    }
}

/// A number of two bytes, the low byte first.
fn pair(bytes: &[u8]) -> usize {
    usize::from(bytes[0]) + 256 * usize::from(bytes[1])
}

/// The bodies in table order, without gaps, filling the bytes; then the test.
pub fn read(bytes: &[u8]) -> Result<Recording, Fault> {
    if bytes.len() < HEAD {
        return Err(Fault::Short);
    }
    let table_end = HEAD + ENTRY * usize::from(bytes[1]);
    if bytes.len() < table_end {
        return Err(Fault::Short);
    }
    let mut sections = vec![];
    let mut end = table_end;
    for entry in bytes[HEAD..table_end].chunks(ENTRY) {
        let (offset, count) = (pair(&entry[..2]), pair(&entry[2..]));
        if offset != end {
            return Err(Fault::Offset);
        }
        end += EVENT * count;
        let body = bytes.get(offset..end).ok_or(Fault::Beyond)?;
        sections.push(body.chunks(EVENT).map(Event::of_bytes).collect());
    }
    if end != bytes.len() {
        return Err(Fault::Behind);
    }
    let recording = Recording { nodes: u32::from(bytes[0]), sections };
    recording.stands()?;
    Ok(recording)
}

/// The bytes of a recording.
pub fn write(recording: &Recording) -> Result<Vec<u8>, Fault> {
    recording.stands()?;
    let mut bytes = vec![recording.nodes as u8, recording.sections.len() as u8];
    let mut offset = HEAD + ENTRY * recording.sections.len();
    for section in &recording.sections {
        for number in [offset, section.len()] {
            bytes.extend([(number % 256) as u8, (number / 256) as u8]);
        }
        offset += EVENT * section.len();
    }
    bytes.extend(recording.event_bytes());
    Ok(bytes)
}

/// The reader over lent memory (rule K5): nodes, sections and events found. What is behind that which is read
/// stays, and all of it where it is refused.
pub fn read_into(bytes: &[u8], counts: &mut [u32], events: &mut [u8]) -> Result<[u32; 3], Refusal> {
    let recording = read(bytes).map_err(Refusal::Broken)?;
    let (all_counts, all_events) = (recording.counts(), recording.event_bytes());
    if counts.len() < all_counts.len() || events.len() < all_events.len() {
        return Err(Refusal::Room);
    }
    counts[..all_counts.len()].copy_from_slice(&all_counts);
    events[..all_events.len()].copy_from_slice(&all_events);
    Ok([recording.nodes, all_counts.len() as u32, (all_events.len() / EVENT) as u32])
}

/// The writer over lent memory (rule K4): how many bytes were written. The others stay.
pub fn write_into(nodes: u32, counts: &[u32], events: &[u8], buffer: &mut [u8]) -> Result<u32, Refusal> {
    let recording = Recording::of_parts(nodes, counts, events).map_err(Refusal::Broken)?;
    let bytes = write(&recording).map_err(Refusal::Broken)?;
    if buffer.len() < bytes.len() {
        return Err(Refusal::Room);
    }
    buffer[..bytes.len()].copy_from_slice(&bytes);
    Ok(bytes.len() as u32)
}

// ---------------------------------------------------------------------------------------------
// Recorder and replay

/// Plays lines on a fresh board with so many places for items, and records them in sections of at most so
/// many events. Wants lines of the board, not too many of them.
pub fn record(nodes: u32, lines: &[Line], places: usize, section_events: usize) -> Recording {
    let mut headers = vec![Header::default(); PLACES];
    let mut buffer = vec![0; places * LONGEST];
    let mut stage = Stage::fresh(nodes, &mut headers, &mut buffer);
    let mut events = vec![];
    for &line in lines {
        let (_, answer) = stage.act(line);
        events.push(Event::of_line(line, answer));
    }
    let mut sections: Vec<Vec<Event>> = events.chunks(section_events).map(<[Event]>::to_vec).collect();
    if sections.is_empty() {
        // There is at least one.
        sections.push(vec![]);
    }
    Recording { nodes, sections }
}

/// The recording of a script (rule K9); where that stops, the number and the line.
pub fn record_script(script: &[u8], places: usize) -> Result<Recording, (u8, usize)> {
    let (nodes, lines) = rehearsal::lines_of(script)?;
    Ok(record(nodes, &lines, places, SECTION_EVENTS))
}

/// The events of all sections on one fresh board, with the places that are lent (rule K7); gives how many
/// there are. No event runs before all are tested, so that with 18 the lent bytes stay.
pub fn replay(bytes: &[u8], places: &mut [u8]) -> Result<u32, Refusal> {
    let recording = read(bytes).map_err(Refusal::Broken)?;
    let mut headers = vec![Header::default(); PLACES];
    let mut stage = Stage::fresh(recording.nodes, &mut headers, places);
    let mut position = 0;
    for event in recording.events() {
        let line = event.line(recording.nodes).expect("the reader has tested it");
        let (_, answer) = stage.act(line);
        if answer != event.answer {
            return Err(Refusal::Differs(position));
        }
        position += 1;
    }
    Ok(position)
}
