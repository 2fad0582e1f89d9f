//! Calls on one state: the answer, the state given back, and the lent bytes.

use crate::clauses;
use crate::library::{self, at, c_array, Words};
use crate::report::{held, must, same, Difference, Report};
use model::node::{self, Answer, Barrier, Node, Work};
use model::random::Random;
use model::{FIELD_LIMIT, LONGEST, NODES, SENT_LIMIT, TAKEN_LIMIT};

/// Bytes of a pattern around a lent buffer.
const GUARD: usize = 16;
const ROOM: usize = 160;

/// The model's answer and words; words that are no state give 13 and stay.
fn modelled(words: &Words, call: impl FnOnce(Node) -> (Node, Answer)) -> (u32, Words) {
    match library::node_of(words) {
        Some(state) => {
            let (after, answer) = call(state);
            (u32::from(answer.number()), library::holding(words, &after))
        }
        None => (13, words.clone()),
    }
}

/// An answer, and the words that a call changed.
fn told(before: &Words, (answer, after): &(u32, Words)) -> String {
    let changed: Vec<String> = (0..before.len())
        .filter(|&at| before[at] != after[at])
        .map(|at| format!("word {at} from {} to {}", before[at], after[at]))
        .collect();
    format!("answer {answer}; {}", if changed.is_empty() { "state stays".to_string() } else { changed.join(", ") })
}

/// A call on a state, in C.
fn in_c(before: &Words, call: &str) -> String {
    format!("uint32_t state[] = {}; size_t words = {}; {call}", c_array(before), before.len())
}

/// Answers and states of both sides are the same.
fn agree(
    what: &'static str,
    before: &Words,
    library: (u32, Words),
    model: (u32, Words),
    call: impl FnOnce() -> String,
) -> Result<u32, Difference> {
    if library == model {
        return Ok(library.0);
    }
    let (ours, theirs) = (told(before, &library), told(before, &model));
    Err(Difference { what, library: ours, model: theirs, again: in_c(before, &call()) })
}

pub fn send(report: &mut Report, words: &mut Words, to: u32) -> Result<u32, Difference> {
    let before = words.clone();
    let answer = library::send(words, to);
    report.answer("send", answer);
    let model = modelled(&before, |state| node::send(state, to));
    agree("send", &before, (answer, words.clone()), model, || format!("ocb_send(state, words, {to}u);"))
}

/// What the report calls a take.
pub fn name_of(work: Work) -> &'static str {
    match work {
        Work::Job => "take",
        Work::Note => "take note",
    }
}

pub fn take(report: &mut Report, words: &mut Words, work: Work, from: u32, phase: u8) -> Result<u32, Difference> {
    let (before, name) = (words.clone(), name_of(work));
    let answer = library::take(words, work, from, phase);
    report.answer(name, answer);
    let model = modelled(&before, |state| node::take(state, work, from, phase));
    agree(name, &before, (answer, words.clone()), model, || {
        let function = if work == Work::Job { "ocb_take" } else { "ocb_take_note" };
        format!("{function}(state, words, {from}u, {phase});")
    })?;
    if work == Work::Note && answer == 0 {
        report.count(taker(&before));
    }
    Ok(answer)
}

/// Who takes notes: what a take has to leave, or to put back, differs between them.
pub const TAKERS: [&str; 4] = [
    "notes taken by a busy node",
    "notes taken by an idle node that has not signed in",
    "notes taken by an idle node in pass 1",
    "notes taken by an idle node in pass 2",
];

/// The taker of a note, as its state was before.
fn taker(before: &Words) -> &'static str {
    match (before[at::BUSY], before[at::PASS], before[at::DIMENSION], before[at::FLAG]) {
        (1, ..) => TAKERS[0],
        (_, 1, 0, 1) => TAKERS[1],
        (_, 1, ..) => TAKERS[2],
        _ => TAKERS[3],
    }
}

pub fn idle(report: &mut Report, words: &mut Words) -> Result<u32, Difference> {
    let before = words.clone();
    let answer = library::idle(words);
    report.answer("idle", answer);
    agree("idle", &before, (answer, words.clone()), modelled(&before, node::idle), || "ocb_idle(state, words);".to_string())
}

pub fn frame_in(report: &mut Report, words: &mut Words, bytes: &[u8]) -> Result<u32, Difference> {
    let before = words.clone();
    let answer = library::frame_in(words, bytes);
    report.answer("frame in", answer);
    let model = modelled(&before, |state| node::frame_in(state, bytes));
    agree("frame in", &before, (answer, words.clone()), model, || {
        let count = bytes.len();
        format!("uint8_t bytes[] = {}; ocb_frame_in(state, words, bytes, {count});", c_array(bytes))
    })
}

/// What a caller has in the five words beside a barrier answer before the call.
const LENT: [u32; 5] = [0xa5a5_a5a5; 5];

/// The five words beside a barrier answer; they stay where it refuses.
fn details_of(answer: &Barrier) -> [u32; 5] {
    match answer {
        Barrier::Sent { receivers, length } => {
            let second = receivers.get(1).copied().unwrap_or(0);
            [receivers.len() as u32, receivers[0], second, *length as u32, 0]
        }
        Barrier::Waits { clause } => [0, 0, 0, 0, u32::from(*clause)],
        Barrier::Refused(_) => LENT,
        _ => [0; 5],
    }
}

/// A barrier call with so many bytes lent, up to 128, in the middle of a pattern.
pub fn barrier(report: &mut Report, words: &mut Words, room: usize) -> Result<u32, Difference> {
    let before = words.clone();
    let (mut ours, mut theirs) = (library::pattern::<ROOM>(), library::pattern::<ROOM>());
    let lent = GUARD..GUARD + room;
    let mut details = LENT;
    let answer = library::barrier(words, &mut ours[lent.clone()], &mut details);
    report.answer("barrier", answer);
    let state = library::node_of(&before);
    let (after, model) = match state {
        Some(state) => {
            let (after, model) = node::barrier(state, &mut theirs[lent]);
            (library::holding(&before, &after), model)
        }
        None => (before.clone(), Barrier::Refused(13)),
    };
    let call = || {
        let lent = "uint8_t buffer[128]; uint32_t details[OCB_DETAIL_WORDS];";
        format!("{lent} ocb_barrier(state, words, buffer, {room}, details);")
    };
    agree("barrier", &before, (answer, words.clone()), (u32::from(model.number()), after), call)?;
    held("barrier details", &details, &details_of(&model), || in_c(&before, &call()))?;
    held("barrier bytes", &ours, &theirs, || in_c(&before, &call()))?;
    if let (Some(state), Barrier::Waits { .. }) = (state, model) {
        waited(report, &state, details[4], || in_c(&before, &call()))?;
    }
    Ok(answer)
}

/// The clauses that fail at a wait are some that can fail at once, and the lowest is named.
fn waited(report: &mut Report, state: &Node, named: u32, again: impl FnOnce() -> String) -> Result<(), Difference> {
    report.answer("clause", named);
    let wait = clauses::wait_of(state, named);
    held("clauses that fail at once", &Some(&wait), &clauses::expected(&wait, report.origin()).as_ref(), again)?;
    report.wait(wait);
    Ok(())
}

/// Every call once on a copy of a state, with arguments good and bad.
pub fn every(report: &mut Report, random: &mut Random, words: &Words, frames: &[Vec<u8>]) {
    report.count("states handed");
    let nodes = words.first().map_or(1, |&nodes| nodes.clamp(1, NODES));
    let other = match random.below(6) {
        0 => words.get(at::NUMBER).copied().unwrap_or(0),
        1 => nodes,
        2 => u32::MAX - random.below(2),
        _ => random.below(nodes),
    };
    must(send(report, &mut words.clone(), other));
    let phase = (words.get(at::PHASE).copied().unwrap_or(0) as u8).wrapping_add([0, 0, 0, 1, 255, 2][random.below(6) as usize]);
    for work in Work::BOTH {
        must(take(report, &mut words.clone(), work, other, phase));
    }
    must(idle(report, &mut words.clone()));
    must(barrier(report, &mut words.clone(), random.below(LONGEST as u32 + 4) as usize));
    must(barrier(report, &mut words.clone(), LONGEST + 4));
    for frame in frames {
        must(frame_in(report, &mut words.clone(), frame));
        must(frame_in(report, &mut words.clone(), &spoilt(random, frame)));
    }
}

/// A frame cut, lengthened, or with one byte changed.
fn spoilt(random: &mut Random, frame: &[u8]) -> Vec<u8> {
    let mut frame = frame.to_vec();
    let at = random.below(frame.len() as u32) as usize;
    match random.below(4) {
        0 => frame.truncate(at),
        1 => frame.extend(&library::pattern::<LONGEST>()[..1 + at % 9]),
        2 => frame[at] = random.below(256) as u8,
        _ => frame[at] = frame[at].wrapping_add(1 + random.below(3) as u8),
    }
    frame
}

/// Numbers next to a limit of some word of a state, and numbers of nodes that no board has.
const EDGES: [u32; 14] = [
    NODES - 1,
    NODES,
    NODES + 1,
    128,
    129,
    255,
    256,
    257,
    SENT_LIMIT,
    SENT_LIMIT + 1,
    TAKEN_LIMIT,
    TAKEN_LIMIT + 1,
    FIELD_LIMIT,
    FIELD_LIMIT + 1,
];

/// A state with one word changed, or with other words after it, or with fewer words.
pub fn changed(random: &mut Random, words: &Words) -> Words {
    let mut words = words.clone();
    match random.below(12) {
        0 => words.push(random.draw() as u32),
        1 => words.truncate(random.below(words.len() as u32 + 1) as usize),
        _ => change_one(random, &mut words),
    }
    words
}

fn change_one(random: &mut Random, words: &mut Words) {
    let count = words.len() as u32;
    let end = if random.below(2) == 0 { count.min(24) } else { count };
    if end == 0 {
        return;
    }
    let word = &mut words[random.below(end) as usize];
    *word = match random.below(7) {
        0 => 0,
        1 => 1,
        2 => word.wrapping_add(1),
        3 => word.wrapping_sub(1),
        4 => EDGES[random.below(EDGES.len() as u32) as usize],
        5 => random.below(9),
        _ => random.draw() as u32,
    };
}

/// Words at random: any at all, or each in the range of its place, with small numbers more often than not; as many as
/// the board needs, most of the time.
pub fn noise(random: &mut Random) -> Words {
    let any = random.below(4) == 0;
    let nodes = if any { random.draw() as u32 } else { 1 + random.below(6) };
    let count = match random.below(8) {
        0 => random.below(library::words_for(NODES) as u32 + 6) as usize,
        _ => library::words_for(nodes),
    };
    let marks = library::marks(nodes);
    (0..count)
        .map(|place| {
            let small = random.below(4);
            match place {
                at::NODES => nodes,
                _ if any => random.draw() as u32,
                at::NUMBER | at::DIMENSION => random.below(3),
                at::BUSY | at::FLAG => random.below(2),
                at::PASS => 1 + random.below(2),
                _ if marks.contains(&place) => random.below(2),
                _ => small / 3,
            }
        })
        .collect()
}

/// A state lent with each number of words up to one more than its board needs.
pub fn lengths(report: &mut Report, random: &mut Random, words: &Words) {
    for count in 0..=words.len() + 1 {
        let mut lent = words.clone();
        lent.resize(count, 0xa5a5_a5a5);
        every(report, random, &lent, &[]);
        report.count("states lent with so many words");
    }
}

/// Fresh nodes of every board and number, good and bad, in as many words as the board needs.
pub fn fresh(report: &mut Report) {
    for board in (0..=260).chain([65_536, u32::MAX]) {
        for number in (0..=260).chain([65_536, u32::MAX]) {
            fresh_in(report, board, number, library::words_for(board));
        }
    }
    for board in [1, 2, 3, 5, 16, 17, 33, 64, 65, 95, 96, 97, 128, 129, 256] {
        for number in [0, board - 1, board] {
            for count in 0..=library::words_for(board.min(NODES)) + 1 {
                fresh_in(report, board, number, count);
            }
        }
    }
}

/// A fresh node in so many words; too few are refused with 13, after 1 and 2.
fn fresh_in(report: &mut Report, board: u32, number: u32, count: usize) {
    let mut words: Words = vec![0xa5a5_a5a5; count];
    let before = words.clone();
    let answer = library::fresh(&mut words, board, number);
    let few = count < library::words_for(board);
    let model = match node::fresh(board, number) {
        Ok(_) if few => (13, before),
        Ok(state) => (0, library::holding(&before, &state)),
        Err(number) => (u32::from(number), before),
    };
    let again = || format!("uint32_t state[{count} + 1]; ocb_fresh(state, {count}, {board}u, {number}u);");
    same("fresh", &(answer, words), &model, again);
    report.answer("fresh", answer);
    let bad = board == 0 || board > NODES;
    report.order("fresh", &[("1", 1, bad), ("2", 2, number >= board), ("13", 13, few)], answer);
}
