//! The C functions of both libraries, and the model's state as the words that they take.

use model::frame::Fields;
use model::node::{First, Node, Second, Work};
use model::{tree, FIELD_WORDS, SHELLS};

/// A state as the library holds it: as many words as its board needs, or more, or fewer.
pub type Words = Vec<u32>;

extern "C" {
    fn ocb_dimension(nodes: u32, found: *mut u32) -> u32;
    fn ocb_place(nodes: u32, dimension: u32, node: u32, found: *mut u32) -> u32;
    fn ocb_distance(nodes: u32, a: u32, b: u32, found: *mut u32) -> u32;
    fn ocb_fresh(state: *mut u32, words: usize, nodes: u32, number: u32) -> u32;
    fn ocb_send(state: *mut u32, words: usize, to: u32) -> u32;
    fn ocb_take(state: *mut u32, words: usize, from: u32, phase: u8) -> u32;
    fn ocb_take_note(state: *mut u32, words: usize, from: u32, phase: u8) -> u32;
    fn ocb_idle(state: *mut u32, words: usize) -> u32;
    fn ocb_frame_in(state: *mut u32, words: usize, bytes: *const u8, count: usize) -> u32;
    fn ocb_barrier(state: *mut u32, words: usize, buffer: *mut u8, count: usize, details: *mut u32) -> u32;
    fn ocb_frame_write(nodes: u32, fields: *const u32, buffer: *mut u8, count: usize, length: *mut u32) -> u32;
    fn ocb_frame_read(nodes: u32, bytes: *const u8, count: usize, fields: *mut u32) -> u32;
}

extern "C" {
    fn ocb_recording_read(
        bytes: *const u8,
        count: usize,
        counts: *mut u32,
        sections: usize,
        events: *mut u8,
        room: usize,
        found: *mut u32,
    ) -> u32;
    fn ocb_recording_write(
        nodes: u32,
        counts: *const u32,
        sections: usize,
        events: *const u8,
        size: usize,
        buffer: *mut u8,
        count: usize,
        length: *mut u32,
    ) -> u32;
    fn ocb_replay(recording: *const u8, count: usize, places: *mut u8, room: usize, position: *mut u32) -> u32;
}

pub fn dimension(nodes: u32, found: &mut [u32; 1]) -> u32 {
    unsafe { ocb_dimension(nodes, found.as_mut_ptr()) }
}

pub fn place(nodes: u32, dimension: u32, node: u32, found: &mut [u32; 3]) -> u32 {
    unsafe { ocb_place(nodes, dimension, node, found.as_mut_ptr()) }
}

pub fn distance(nodes: u32, a: u32, b: u32, found: &mut [u32; 1]) -> u32 {
    unsafe { ocb_distance(nodes, a, b, found.as_mut_ptr()) }
}

pub fn fresh(state: &mut [u32], nodes: u32, number: u32) -> u32 {
    unsafe { ocb_fresh(state.as_mut_ptr(), state.len(), nodes, number) }
}

pub fn send(state: &mut [u32], to: u32) -> u32 {
    unsafe { ocb_send(state.as_mut_ptr(), state.len(), to) }
}

pub fn take(state: &mut [u32], work: Work, from: u32, phase: u8) -> u32 {
    match work {
        Work::Job => unsafe { ocb_take(state.as_mut_ptr(), state.len(), from, phase) },
        Work::Note => unsafe { ocb_take_note(state.as_mut_ptr(), state.len(), from, phase) },
    }
}

pub fn idle(state: &mut [u32]) -> u32 {
    unsafe { ocb_idle(state.as_mut_ptr(), state.len()) }
}

pub fn frame_in(state: &mut [u32], bytes: &[u8]) -> u32 {
    unsafe { ocb_frame_in(state.as_mut_ptr(), state.len(), bytes.as_ptr(), bytes.len()) }
}

pub fn barrier(state: &mut [u32], buffer: &mut [u8], details: &mut [u32; 5]) -> u32 {
    let (words, count) = (state.len(), buffer.len());
    unsafe { ocb_barrier(state.as_mut_ptr(), words, buffer.as_mut_ptr(), count, details.as_mut_ptr()) }
}

pub fn frame_write(nodes: u32, fields: &[u32; FIELD_WORDS], buffer: &mut [u8], length: &mut [u32; 1]) -> u32 {
    unsafe { ocb_frame_write(nodes, fields.as_ptr(), buffer.as_mut_ptr(), buffer.len(), length.as_mut_ptr()) }
}

pub fn frame_read(nodes: u32, bytes: &[u8], fields: &mut [u32; FIELD_WORDS]) -> u32 {
    unsafe { ocb_frame_read(nodes, bytes.as_ptr(), bytes.len(), fields.as_mut_ptr()) }
}

// What the functions for recordings only read is handed to these as memory that may be written, so that a caller can
// see that nothing was.

pub fn recording_read(bytes: &mut [u8], counts: &mut [u32], events: &mut [u8], found: &mut [u32; 3]) -> u32 {
    let (sections, room) = (counts.len(), events.len());
    let (counts, events) = (counts.as_mut_ptr(), events.as_mut_ptr());
    unsafe { ocb_recording_read(bytes.as_mut_ptr(), bytes.len(), counts, sections, events, room, found.as_mut_ptr()) }
}

pub fn recording_write(
    nodes: u32,
    counts: &mut [u32],
    events: &mut [u8],
    buffer: &mut [u8],
    length: &mut [u32; 1],
) -> u32 {
    let (sections, size, count) = (counts.len(), events.len(), buffer.len());
    let (counts, events, buffer) = (counts.as_mut_ptr(), events.as_mut_ptr(), buffer.as_mut_ptr());
    unsafe { ocb_recording_write(nodes, counts, sections, events, size, buffer, count, length.as_mut_ptr()) }
}

pub fn replay(recording: &mut [u8], places: &mut [u8], position: &mut [u32; 1]) -> u32 {
    let (count, room) = (recording.len(), places.len());
    unsafe { ocb_replay(recording.as_mut_ptr(), count, places.as_mut_ptr(), room, position.as_mut_ptr()) }
}

/// Memory filled with a pattern, to lend a part of: what is written beside that part shows.
pub fn pattern<const N: usize>() -> [u8; N] {
    std::array::from_fn(|at| (at * 7 + 3) as u8)
}

/// Numbers as C writes an array.
pub fn c_array<T: std::fmt::Display>(numbers: &[T]) -> String {
    let numbers: Vec<String> = numbers.iter().map(T::to_string).collect();
    format!("{{{}}}", numbers.join(", "))
}

/// The dimensions of a board; none where there is no such board.
fn dims(board: u32) -> Option<usize> {
    tree::dimension(board).ok().map(|p| p as usize)
}

/// Where the words of a state stand. A board of p dimensions has p shells, and a pass 1 frame of dimension k the shells
/// k to p - 1.
pub mod at {
    pub const NODES: usize = 0;
    pub const NUMBER: usize = 1;
    pub const PHASE: usize = 2;
    pub const BUSY: usize = 3;
    pub const PASS: usize = 4;
    pub const DIMENSION: usize = 5;
    pub const FLAG: usize = 6;
    pub const TOTAL: usize = 7;
    pub const HEAD: usize = 8;

    pub fn sent(m: usize) -> usize {
        HEAD + m
    }

    pub fn taken(p: usize, m: usize) -> usize {
        HEAD + p + m
    }

    /// A mark, sent by shell, taken by shell, total sent, total taken.
    pub fn first(p: usize, k: usize) -> usize {
        HEAD + 2 * p + (0..k).map(|j| 2 * (p - j) + 6).sum::<usize>()
    }

    /// A mark, T, total sent.
    pub fn second(p: usize, k: usize) -> usize {
        first(p, k) + 2 * (p - k) + 3
    }
}

/// How many words the state of a board has; only the head's where there is no such board.
pub fn words_for(board: u32) -> usize {
    dims(board).map_or(at::HEAD, |p| at::first(p, p))
}

/// The places of a board's marks, which say whether a frame is stored.
pub fn marks(board: u32) -> Vec<usize> {
    let p = dims(board).unwrap_or(0);
    (0..p).flat_map(|k| [at::first(p, k), at::second(p, k)]).collect()
}

/// The words with another state in the place of the one that they hold.
pub fn holding(words: &[u32], node: &Node) -> Words {
    let mut after = words_of(node);
    after.extend(&words[after.len()..]);
    after
}

/// The words of a state of the model; its numbers must fit their places, and a number without a place is left out.
pub fn words_of(node: &Node) -> Words {
    let mut words = vec![
        node.board,
        node.number,
        u32::from(node.phase),
        u32::from(node.busy),
        u32::from(node.pass),
        u32::from(node.dim),
        u32::from(node.flag),
        node.t,
    ];
    let p = dims(node.board).expect("a board");
    words.extend(&node.sent[..p]);
    words.extend(&node.taken[..p]);
    for (k, (first, second)) in node.first.iter().zip(&node.second).take(p).enumerate() {
        words.push(u32::from(first.present));
        words.extend(&first.sent[k..p]);
        words.extend(&first.taken[k..p]);
        words.extend([first.total_sent, first.total_taken]);
        words.extend([u32::from(second.present), second.t, second.total_sent]);
    }
    words
}

/// The words from a place on as the shells from k on; the others are 0.
fn shells(words: &[u32], place: usize, k: usize, p: usize) -> [u32; SHELLS] {
    std::array::from_fn(|m| if (k..p).contains(&m) { words[place + m - k] } else { 0 })
}

/// The model's state for words; nothing where they are too few for the board that they name, or one is not in the range
/// of its place. Words after those of the state are not looked at.
pub fn node_of(words: &[u32]) -> Option<Node> {
    let p = dims(*words.first()?)?;
    if words.len() < words_for(words[at::NODES]) {
        return None;
    }
    let bytes = [at::PHASE, at::PASS, at::DIMENSION].iter().all(|&at| words[at] < 256);
    let bits = [at::BUSY, at::FLAG].iter().all(|&at| words[at] < 2);
    if !bytes || !bits {
        return None;
    }
    let mut node = Node {
        board: words[at::NODES],
        number: words[at::NUMBER],
        phase: words[at::PHASE] as u8,
        busy: words[at::BUSY] == 1,
        sent: shells(words, at::sent(0), 0, p),
        taken: shells(words, at::taken(p, 0), 0, p),
        pass: words[at::PASS] as u8,
        dim: words[at::DIMENSION] as u8,
        flag: words[at::FLAG] == 1,
        t: words[at::TOTAL],
        first: Default::default(),
        second: Default::default(),
    };
    for k in 0..p {
        let (first, second) = (at::first(p, k), at::second(p, k));
        if words[first] > 1 || words[second] > 1 {
            return None;
        }
        node.first[k] = First {
            present: words[first] == 1,
            sent: shells(words, first + 1, k, p),
            taken: shells(words, first + 1 + (p - k), k, p),
            total_sent: words[second - 2],
            total_taken: words[second - 1],
        };
        node.second[k] =
            Second { present: words[second] == 1, t: words[second + 1], total_sent: words[second + 2] };
    }
    Some(node)
}

/// The words of a frame's fields.
pub fn field_words(fields: &Fields) -> [u32; FIELD_WORDS] {
    let mut words = vec![
        fields.pass,
        u32::from(fields.phase),
        fields.dim,
        fields.sender,
        fields.total_sent,
        fields.total_taken,
        fields.t,
    ];
    words.extend(fields.sent);
    words.extend(fields.taken);
    words.try_into().expect("so many words")
}
