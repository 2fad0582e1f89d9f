//! The rehearsal (rule S1 to rule S9): from the bytes of a script to the bytes printed.

use crate::node::{self, Answer, Barrier, Node, Work};
use crate::{frame, no, tree, LONGEST};

/// The most bytes of a script (rule S2).
pub const SCRIPT_LIMIT: usize = 4096;

/// The most places for items (rule S5).
pub const PLACES: usize = 512;

/// The most nodes of a rehearsal's board (rule S4).
const LARGEST_BOARD: u32 = 16;

/// What an item is.
#[derive(Clone, Copy, Debug, Default, PartialEq, Eq)]
pub enum Kind {
    #[default]
    Job,
    Frame,
    Note,
}

/// An item of the lent list of headers (rule S5).
#[derive(Clone, Copy, Debug, Default, PartialEq, Eq)]
pub struct Header {
    pub from: u32,
    pub to: u32,
    pub kind: Kind,
    pub phase: u8,
}

/// A line after the first (rule S3).
#[derive(Clone, Copy, Debug, PartialEq, Eq)]
pub enum Line {
    Send { work: Work, a: u32, b: u32 },
    Deliver { a: u32, b: u32 },
    Idle { a: u32 },
    Barrier { a: u32 },
}

/// The nodes, and the lent headers and buffer, of which the first `count` places are in use.
pub(crate) struct Stage<'a> {
    nodes: Vec<Node>,
    headers: &'a mut [Header],
    buffer: &'a mut [u8],
    count: usize,
}

/// The output for a script, with all 512 places lent.
pub fn rehearse(script: &[u8]) -> Vec<u8> {
    let mut headers = vec![Header::default(); PLACES];
    let mut buffer = vec![0; PLACES * LONGEST];
    rehearse_in(script, &mut headers, &mut buffer)
}

/// The output for a script; the lent memory is left as the rehearsal leaves it.
pub fn rehearse_in(script: &[u8], headers: &mut [Header], buffer: &mut [u8]) -> Vec<u8> {
    let mut output = b"node answer phase pass dim flag busy\n".to_vec();
    if let Err((number, line)) = play_script(script, headers, buffer, &mut output) {
        output.extend(format!("stop {number} at line {line}\n").bytes());
    }
    output
}

/// Plays line by line; an error is a stop with its number and line.
fn play_script(
    script: &[u8],
    headers: &mut [Header],
    buffer: &mut [u8],
    output: &mut Vec<u8>,
) -> Result<(), (u8, usize)> {
    let (size, rest) = open(script)?;
    let mut stage = Stage::fresh(size, headers, buffer);
    each_line(rest, size, |line| output.extend(stage.play(line).bytes()))
}

/// The board and the lines of a script that does not stop; an error as above.
pub fn lines_of(script: &[u8]) -> Result<(u32, Vec<Line>), (u8, usize)> {
    let (size, rest) = open(script)?;
    let mut lines = vec![];
    each_line(rest, size, |line| lines.push(line))?;
    Ok((size, lines))
}

// ---------------------------------------------------------------------------------------------
// The script

/// The board's size, and what stands after the first line (rule S4).
fn open(script: &[u8]) -> Result<(u32, &[u8]), (u8, usize)> {
    if script.len() > SCRIPT_LIMIT {
        // Too long: before any line is looked at.
        return Err((no::SCRIPT, 0));
    }
    let (first, rest) = cut_line(script).ok_or((no::SCRIPT, 1))?;
    let size = board_size(first).map_err(|number| (number, 1))?;
    Ok((size, rest))
}

/// The lines after the first, one by one, up to one that is not of the form.
fn each_line(mut rest: &[u8], size: u32, mut each: impl FnMut(Line)) -> Result<(), (u8, usize)> {
    let mut number = 1;
    while !rest.is_empty() {
        number += 1;
        let (text, after) = cut_line(rest).ok_or((no::SCRIPT, number))?;
        each(parse_line(text, size).ok_or((no::SCRIPT, number))?);
        rest = after;
    }
    Ok(())
}

/// The text up to the first newline, and what stands after it. None without a newline.
fn cut_line(script: &[u8]) -> Option<(&[u8], &[u8])> {
    let end = script.iter().position(|&byte| byte == b'\n')?;
    Some((&script[..end], &script[end + 1..]))
}

/// The parts between blanks (rule S3).
fn parts(line: &[u8]) -> Vec<&[u8]> {
    line.split(|&byte| byte == b' ').collect()
}

/// A number of a line (rule S3).
fn number(part: &[u8]) -> Option<u32> {
    let digits = (1..=3).contains(&part.len()) && part.iter().all(u8::is_ascii_digit);
    let leading_zero = part.len() > 1 && part[0] == b'0';
    if !digits || leading_zero {
        return None;
    }
    Some(part.iter().fold(0, |value, digit| 10 * value + u32::from(digit - b'0')))
}

/// `nodes P`: 17 when not of that form, 1 when no rehearsal has such a board (rule S4).
fn board_size(line: &[u8]) -> Result<u32, u8> {
    let parts = parts(line);
    if parts.len() != 2 || parts[0] != b"nodes" {
        return Err(no::SCRIPT);
    }
    let size = number(parts[1]).ok_or(no::SCRIPT)?;
    if size == 0 || size > LARGEST_BOARD {
        return Err(no::BOARD);
    }
    Ok(size)
}

/// A later line (rule S3); none where it is not of the form, or names a node that the board lacks.
fn parse_line(line: &[u8], size: u32) -> Option<Line> {
    let parts = parts(line);
    let mut ends = vec![];
    for part in &parts[1..] {
        ends.push(number(part).filter(|&end| end < size)?);
    }
    match (parts[0], ends.as_slice()) {
        (b"s", &[a, b]) => Some(Line::Send { work: Work::Job, a, b }),
        (b"t", &[a, b]) => Some(Line::Send { work: Work::Note, a, b }),
        (b"d", &[a, b]) => Some(Line::Deliver { a, b }),
        (b"i", &[a]) => Some(Line::Idle { a }),
        (b"b", &[a]) => Some(Line::Barrier { a }),
        _ => None,
    }
}

// ---------------------------------------------------------------------------------------------
// The events

impl<'a> Stage<'a> {
    /// Fresh nodes, and no item under way. Wants a board of 1 to 16.
    pub(crate) fn fresh(size: u32, headers: &'a mut [Header], buffer: &'a mut [u8]) -> Stage<'a> {
        let nodes = (0..size).map(|number| node::fresh(size, number).expect("a board of 1 to 16")).collect();
        Stage { nodes, headers, buffer, count: 0 }
    }

    /// Plays a line, and gives what is printed for it (rule S9).
    fn play(&mut self, line: Line) -> String {
        let (acting, answer) = self.act(line);
        let node = &self.nodes[acting as usize];
        let (flag, busy) = (u8::from(node.flag), u8::from(node.busy));
        format!("{acting} {answer} {} {} {} {flag} {busy}\n", node.phase, node.pass, node.dim)
    }

    /// Plays a line, and gives the acting node and the answer.
    pub(crate) fn act(&mut self, line: Line) -> (u32, u8) {
        match line {
            Line::Send { work, a, b } => (a, self.send(work, a, b)),
            Line::Deliver { a, b } => (b, self.deliver(a, b)),
            Line::Idle { a } => (a, self.idle(a)),
            Line::Barrier { a } => (a, self.barrier(a)),
        }
    }

    /// 15, where there is no place left, comes after every refusal of the call (rule S7).
    fn send(&mut self, work: Work, a: u32, b: u32) -> u8 {
        let (after, answer) = node::send(self.nodes[a as usize], b);
        if answer == Answer::Done {
            if self.left() < 1 {
                return no::CROWDED;
            }
            let kind = match work {
                Work::Job => Kind::Job,
                Work::Note => Kind::Note,
            };
            self.append(Header { from: a, to: b, kind, phase: after.phase }, &[]);
        }
        self.nodes[a as usize] = after;
        answer.number()
    }

    fn idle(&mut self, a: u32) -> u8 {
        let (after, answer) = node::idle(self.nodes[a as usize]);
        self.nodes[a as usize] = after;
        answer.number()
    }

    fn barrier(&mut self, a: u32) -> u8 {
        let mut written = [0; LONGEST];
        let (after, answer) = node::barrier(self.nodes[a as usize], &mut written);
        if let Barrier::Sent { receivers, length } = &answer {
            if self.left() < receivers.len() {
                return no::CROWDED;
            }
            for &to in receivers {
                let header = Header { from: a, to, kind: Kind::Frame, phase: after.phase };
                self.append(header, &written[..*length]);
            }
        }
        self.nodes[a as usize] = after;
        answer.number()
    }

    /// Rule S8: 16 with nothing on the link; an early item stays.
    fn deliver(&mut self, a: u32, b: u32) -> u8 {
        let on_link = |header: &Header| header.from == a && header.to == b;
        let Some(place) = self.headers[..self.count].iter().position(on_link) else {
            return no::NOTHING;
        };
        let node = self.nodes[b as usize];
        let Header { kind, phase, .. } = self.headers[place];
        let (after, answer) = match kind {
            Kind::Job => node::take(node, Work::Job, a, phase),
            Kind::Note => node::take(node, Work::Note, a, phase),
            Kind::Frame => node::frame_in(node, &self.frame_at(place)),
        };
        self.nodes[b as usize] = after;
        if answer != Answer::Refused(no::EARLY) {
            self.remove(place);
        }
        answer.number()
    }
}

// ---------------------------------------------------------------------------------------------
// The places

impl Stage<'_> {
    /// The places lent, 512 at most, less those in use.
    fn left(&self) -> usize {
        PLACES.min(self.headers.len()).min(self.buffer.len() / LONGEST) - self.count
    }

    /// A frame goes to the start of its item's place; other bytes stay (rule S6).
    fn append(&mut self, header: Header, bytes: &[u8]) {
        let start = self.count * LONGEST;
        self.headers[self.count] = header;
        self.buffer[start..start + bytes.len()].copy_from_slice(bytes);
        self.count += 1;
    }

    /// The bytes of the frame at a place; its length is the stated one.
    fn frame_at(&self, place: usize) -> Vec<u8> {
        let bytes = &self.buffer[place * LONGEST..(place + 1) * LONGEST];
        let p = tree::dimension(self.nodes.len() as u32).expect("a board of 1 to 16");
        let length = frame::stated_length(p, u32::from(bytes[0]), u32::from(bytes[2]));
        bytes[..length].to_vec()
    }

    /// All places above move down; the last place in use keeps what it had (rule S6).
    fn remove(&mut self, place: usize) {
        for above in place + 1..self.count {
            self.headers[above - 1] = self.headers[above];
            let bytes = self.buffer[above * LONGEST..(above + 1) * LONGEST].to_vec();
            self.buffer[(above - 1) * LONGEST..above * LONGEST].copy_from_slice(&bytes);
        }
        self.count -= 1;
    }
}
