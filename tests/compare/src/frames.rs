//! Frames written and read: valid ones, and ones with something wrong.

use crate::library::{self, c_array};
use crate::report::{same, Report};
use model::frame::{self, Fields};
use model::random::Random;
use model::{tree, FIELD_WORDS, LONGEST, NODES, SHELLS};

const LIMIT: u32 = model::FIELD_LIMIT;

/// A number at or near a boundary, or anywhere within the limit.
fn number(random: &mut Random) -> u32 {
    match random.below(6) {
        0 => 0,
        1 => LIMIT,
        2 => LIMIT - random.below(3),
        _ => random.below(LIMIT + 1),
    }
}

/// Fields that the writer accepts on a board of so many nodes, two or more.
fn good(random: &mut Random, nodes: u32) -> Fields {
    let p = tree::dimension(nodes).expect("a board");
    let dim = random.below(p);
    let mut fields = Fields {
        pass: 1 + random.below(2),
        phase: random.below(256) as u8,
        dim,
        sender: random.below(nodes),
        total_sent: number(random),
        ..Fields::default()
    };
    if fields.pass == 1 {
        for shell in dim..p {
            fields.sent[shell as usize] = number(random);
            fields.taken[shell as usize] = number(random);
        }
        fields.total_taken = number(random);
    } else {
        fields.t = number(random);
    }
    fields
}

/// One field changed, often past what is allowed. A byte stays a byte.
fn spoilt(random: &mut Random, mut fields: Fields) -> Fields {
    let wild = match random.below(4) {
        0 => LIMIT + 1,
        1 => u32::MAX,
        2 => 1,
        _ => LIMIT + 1 + random.below(9),
    };
    let shell = random.below(SHELLS as u32) as usize;
    match random.below(9) {
        0 => fields.pass = random.below(5),
        1 => fields.dim = random.below(12),
        2 => fields.sender = random.below(256),
        3 => fields.sent[shell] = wild,
        4 => fields.taken[shell] = wild,
        5 => fields.total_sent = wild,
        6 => fields.total_taken = wild,
        7 => fields.t = wild,
        _ => fields.phase = fields.phase.wrapping_add(1),
    }
    fields
}

/// Writes into so many bytes in the middle of a pattern.
pub fn write(report: &mut Report, nodes: u32, fields: &Fields, room: usize) -> (u32, Vec<u8>) {
    let (mut ours, mut theirs) = (library::pattern::<256>(), library::pattern::<256>());
    let lent = 16..16 + room;
    let words = library::field_words(fields);
    let mut length = [0xa5a5_a5a5; 1];
    let answer = library::frame_write(nodes, &words, &mut ours[lent.clone()], &mut length);
    let model = match frame::write(nodes, fields, &mut theirs[lent.clone()]) {
        Ok(written) => (0, [written as u32]),
        Err(number) => (u32::from(number), [0xa5a5_a5a5]),
    };
    let again = || {
        let fields = format!("uint32_t fields[OCB_FIELD_WORDS] = {}; uint8_t buffer[256];", c_array(&words));
        format!("{fields} uint32_t length; ocb_frame_write({nodes}u, fields, buffer, {room}, &length);")
    };
    same("written answer", &(answer, length), &model, again);
    same("written bytes", &ours, &theirs, again);
    report.count("frames written");
    report.answer("frame writer", answer);
    let written = if answer == 0 { length[0] as usize } else { 0 };
    (answer, ours[lent][..written].to_vec())
}

/// Lent words for fields, and two of a pattern behind them.
fn guarded(fields: [u32; FIELD_WORDS]) -> [u32; FIELD_WORDS + 2] {
    std::array::from_fn(|at| fields.get(at).copied().unwrap_or(0xa5a5_a5a5))
}

pub fn read(report: &mut Report, nodes: u32, bytes: &[u8]) -> u32 {
    let lent = guarded([0xa5a5_a5a5; FIELD_WORDS]);
    let mut ours = lent;
    let answer = library::frame_read(nodes, bytes, ours.first_chunk_mut().expect("so many words"));
    let model = match frame::read(nodes, bytes) {
        Ok(fields) => (0, guarded(library::field_words(&fields))),
        Err(number) => (u32::from(number), lent),
    };
    same("read frame", &(answer, ours), &model, || {
        let lent = format!("uint8_t bytes[] = {}; uint32_t fields[OCB_FIELD_WORDS];", c_array(bytes));
        format!("{lent} ocb_frame_read({nodes}u, bytes, {}, fields);", bytes.len())
    });
    report.count("frames read");
    report.answer("frame reader", answer);
    answer
}

/// The bytes as they are, cut, lengthened, and with one byte changed.
fn read_all(report: &mut Report, random: &mut Random, nodes: u32, bytes: &[u8]) {
    read(report, nodes, bytes);
    read(report, nodes, &bytes[..random.below(bytes.len() as u32) as usize]);
    let mut longer = bytes.to_vec();
    longer.push(0);
    read(report, nodes, &longer);
    for _ in 0..4 {
        let mut changed = bytes.to_vec();
        let at = random.below(bytes.len() as u32) as usize;
        changed[at] = random.below(256) as u8;
        read(report, nodes, &changed);
    }
}

/// Words that are no byte where a frame has one: a phase gives 10 after 1 and before all else, the others what any other
/// value that the board does not have gives.
fn no_bytes(report: &mut Report) {
    for nodes in [0, 1, 2, 95, 96, 97, 128, 129, 256] {
        for (at, word) in (0..4).flat_map(|at| [256, 257, 65_537, u32::MAX].map(|word| (at, word))) {
            for room in [0, LONGEST] {
                let mut words = library::field_words(&Fields { pass: 1, sender: 1, ..Fields::default() });
                words[at] = word;
                let (mut bytes, mut length) = (library::pattern::<LONGEST>(), [0xa5a5_a5a5; 1]);
                let answer = library::frame_write(nodes, &words, &mut bytes[..room], &mut length);
                let again = || format!("ocb_frame_write({nodes}u, {}, buffer, {room}, &length);", c_array(&words));
                let mut theirs = library::pattern::<LONGEST>();
                let refused = frame::write_words(nodes, &words, &mut theirs[..room]).expect_err("no frame");
                let stays = (u32::from(refused), theirs, [0xa5a5_a5a5; 1]);
                same("frame with a word that is no byte", &(answer, bytes, length), &stays, again);
                report.count("frames with a word that is no byte");
            }
        }
    }
}

pub fn compare(report: &mut Report, random: &mut Random, rounds: u64) {
    no_bytes(report);
    for round in 0..rounds {
        let nodes = if round % 3 == 0 { 2 + random.below(15) } else { 2 + random.below(NODES - 1) };
        let fields = good(random, nodes);
        let room = random.below(90) as usize;
        write(report, nodes, &fields, room);
        let (_, bytes) = write(report, nodes, &fields, LONGEST + room);
        read_all(report, random, nodes, &bytes);
        let fields = spoilt(random, fields);
        write(report, nodes, &fields, LONGEST);
        let other = random.below(300);
        write(report, other, &fields, LONGEST);
        read(report, other, &bytes);
        let noise: Vec<u8> = (0..random.below(90)).map(|_| random.below(9) as u8).collect();
        read(report, nodes, &noise);
    }
}
