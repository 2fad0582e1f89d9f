//! Recordings: the worked script's bytes, what is refused, round trips, and replays with the places lent.

use model::board::{self, Board, Outcome};
use model::node::Work;
use model::random::{self, Habits, Random};
use model::recording::{
    read, read_into, record, record_script, replay, write, write_into, Event, Fault, Recording, Refusal,
    RECORDING_LIMIT,
};
use model::rehearsal::{lines_of, rehearse_in, Header, Line, PLACES};
use model::LONGEST;
use std::fs;
use std::path::Path;

const WORKED: &[u8] =
    b"nodes 2\ni 0\nb 0\ni 1\nd 0 1\nb 1\nb 1\nb 1\nd 1 0\nb 0\nb 0\nd 1 0\nb 0\nd 0 1\nb 1\n";

/// Two nodes, one section, whose body begins at 6 and has 14 events.
const WORKED_BYTES: [u8; 62] = [
    2, 1, 6, 0, 14, 0, //
    b'i', 0, 0, 0, //
    b'b', 0, 0, 20, //
    b'i', 1, 0, 0, //
    b'd', 0, 1, 0, //
    b'b', 1, 0, 20, //
    b'b', 1, 0, 22, //
    b'b', 1, 0, 20, //
    b'd', 1, 0, 0, //
    b'b', 0, 0, 22, //
    b'b', 0, 0, 20, //
    b'd', 1, 0, 0, //
    b'b', 0, 0, 23, //
    b'd', 0, 1, 0, //
    b'b', 1, 0, 23,
];

fn event(letter: u8, first: u8, second: u8, answer: u8) -> Event {
    Event { letter, first, second, answer }
}

/// So many idle calls at node 0, which are done.
fn idles(count: usize) -> Vec<Event> {
    vec![event(b'i', 0, 0, 0); count]
}

/// Sections of so many idle calls.
fn sections(nodes: u32, counts: &[usize]) -> Recording {
    Recording { nodes, sections: counts.iter().map(|&count| idles(count)).collect() }
}

/// The bytes that a recording would have, whether it stands or not.
fn bytes_of(recording: &Recording) -> Vec<u8> {
    let mut bytes = vec![recording.nodes as u8, recording.sections.len() as u8];
    let mut offset = 2 + 4 * recording.sections.len() as u16;
    for section in &recording.sections {
        bytes.extend(offset.to_le_bytes());
        bytes.extend((section.len() as u16).to_le_bytes());
        offset = offset.wrapping_add(4 * section.len() as u16);
    }
    bytes.extend(recording.event_bytes());
    bytes
}

/// Reader and writer take a recording, and each undoes the other.
fn stands(recording: &Recording) {
    let bytes = write(recording).unwrap();
    assert_eq!(bytes, bytes_of(recording));
    assert_eq!(bytes.len(), recording.length());
    assert_eq!(read(&bytes).as_ref(), Ok(recording));
}

/// Reader, writer and replay refuse a recording, and no place is touched.
fn falls(recording: &Recording, fault: Fault) {
    assert_eq!(write(recording), Err(fault));
    falls_as_bytes(&bytes_of(recording), fault);
}

fn falls_as_bytes(bytes: &[u8], fault: Fault) {
    assert_eq!(read(bytes), Err(fault), "{bytes:?}");
    let mut places = vec![0xee; 4 * LONGEST];
    assert_eq!(replay(bytes, &mut places), Err(Refusal::Broken(fault)));
    assert!(places.iter().all(|&byte| byte == 0xee));
    assert_eq!(Refusal::Broken(fault).number(), 18);
}

/// A replay with so many places.
fn replayed(bytes: &[u8], places: usize) -> Result<u32, Refusal> {
    replay(bytes, &mut vec![0xee; places * LONGEST])
}

// ---------------------------------------------------------------------------------------------
// The form

#[test]
fn the_worked_script() {
    let recording = record_script(WORKED, PLACES).unwrap();
    assert_eq!(write(&recording).unwrap(), WORKED_BYTES);
    assert_eq!(read(&WORKED_BYTES), Ok(recording));
    assert_eq!(replayed(&WORKED_BYTES, PLACES), Ok(14));
}

#[test]
fn lengths() {
    // Each length is 2 more than a multiple of 4, so none has 60,000 bytes.
    let longest = sections(1, &[14_998]);
    assert_eq!(longest.length(), 59_998);
    stands(&longest);
    assert_eq!(replayed(&write(&longest).unwrap(), 0), Ok(14_998));
    let longest = sections(16, &[467; 31].iter().copied().chain([490]).collect::<Vec<usize>>());
    assert_eq!((longest.sections.len(), longest.length()), (32, 59_998));
    stands(&longest);
    for counts in [vec![14_999], vec![467, 14_531], vec![16_000], vec![16_382], vec![8_000, 8_000]] {
        let long = sections(1, &counts);
        assert!(long.length() > RECORDING_LIMIT);
        falls(&long, Fault::Long);
    }
    assert_eq!(sections(1, &[14_999]).length(), 60_002);
}

#[test]
fn bytes_cut_and_added() {
    for length in 0..WORKED_BYTES.len() {
        let fault = if length < 6 { Fault::Short } else { Fault::Beyond };
        falls_as_bytes(&WORKED_BYTES[..length], fault);
    }
    for added in 1..9 {
        falls_as_bytes(&[&WORKED_BYTES[..], &[0; 8][..added]].concat(), Fault::Behind);
        falls_as_bytes(&[&WORKED_BYTES[..], &b"i\0\0\0i\0\0\0"[..added]].concat(), Fault::Behind);
    }
    let longest = bytes_of(&sections(1, &[14_998]));
    for added in 1..9 {
        falls_as_bytes(&[&longest[..], &[0; 8][..added]].concat(), Fault::Behind);
    }
}

#[test]
fn numbers_of_nodes() {
    for nodes in 1..=16 {
        stands(&sections(nodes, &[3]));
        stands(&sections(nodes, &[0]));
    }
    // Without events no node number is refused in their place.
    for nodes in [0, 17, 18, 255] {
        falls(&sections(nodes, &[0]), Fault::Nodes);
        falls(&sections(nodes, &[3]), Fault::Nodes);
    }
    for nodes in [256, 257, 300, 65_537, u32::MAX] {
        assert_eq!(write(&sections(nodes, &[0])), Err(Fault::Nodes));
    }
}

#[test]
fn numbers_of_sections() {
    for count in 1..=32 {
        stands(&sections(2, &vec![0; count]));
        stands(&sections(2, &vec![2; count]));
    }
    for count in [0, 33, 34, 64, 255] {
        falls(&sections(2, &vec![0; count]), Fault::Sections);
    }
    falls(&sections(2, &[2; 33]), Fault::Sections);
    assert_eq!(write(&sections(2, &[0; 257])), Err(Fault::Sections));
}

#[test]
fn empty_sections() {
    for counts in [vec![0, 2], vec![2, 0], vec![2, 0, 0, 3], vec![0, 0], vec![0, 1, 0]] {
        let recording = sections(2, &counts);
        stands(&recording);
        assert_eq!(replayed(&bytes_of(&recording), 0), Ok(counts.iter().sum::<usize>() as u32));
    }
}

// ---------------------------------------------------------------------------------------------
// The table

/// Three sections of 2, 0 and 3 idle calls; an entry of the table is given as another, and so many bytes
/// are put behind the table.
fn tabled(table: [(u16, u16); 3], more: usize) -> Vec<u8> {
    let mut bytes = bytes_of(&sections(2, &[2, 0, 3]));
    for (entry, (offset, count)) in table.iter().enumerate() {
        let at = 2 + 4 * entry;
        bytes[at..at + 2].copy_from_slice(&offset.to_le_bytes());
        bytes[at + 2..at + 4].copy_from_slice(&count.to_le_bytes());
    }
    bytes.splice(14..14, bytes_of(&sections(1, &[9]))[6..6 + more].to_vec());
    bytes
}

/// Wrong tables for `tabled`.
const TABLES: [([(u16, u16); 3], usize, Fault); 22] = [
    // Wrong by one.
    ([(13, 2), (22, 0), (22, 3)], 0, Fault::Offset),
    ([(15, 2), (22, 0), (22, 3)], 0, Fault::Offset),
    ([(14, 2), (21, 0), (22, 3)], 0, Fault::Offset),
    ([(14, 2), (23, 0), (22, 3)], 0, Fault::Offset),
    ([(14, 2), (22, 0), (21, 3)], 0, Fault::Offset),
    ([(14, 2), (22, 0), (23, 3)], 0, Fault::Offset),
    // An empty section has an offset too.
    ([(14, 2), (0, 0), (22, 3)], 0, Fault::Offset),
    // The other byte first.
    ([(14 << 8, 2), (22, 0), (22, 3)], 0, Fault::Offset),
    // A gap before the bodies, and between them.
    ([(18, 2), (26, 0), (26, 3)], 4, Fault::Offset),
    ([(14, 2), (26, 0), (26, 3)], 4, Fault::Offset),
    // A body shared, in part and whole.
    ([(14, 3), (26, 0), (22, 3)], 0, Fault::Offset),
    ([(14, 5), (34, 0), (14, 5)], 0, Fault::Offset),
    // Bodies out of order.
    ([(26, 2), (34, 0), (14, 3)], 0, Fault::Offset),
    // Offsets from the end of the table, and not from the start.
    ([(0, 2), (8, 0), (8, 3)], 0, Fault::Offset),
    // Counts of bytes, and counts that are one more or one less.
    ([(14, 8), (22, 0), (22, 12)], 0, Fault::Beyond),
    ([(14, 2), (22, 0), (22, 4)], 0, Fault::Beyond),
    ([(14, 2), (22, 0), (22, 2)], 0, Fault::Behind),
    ([(14, 2), (22, 1), (26, 1)], 0, Fault::Behind),
    ([(14, 2), (22, 0), (22, 3)], 4, Fault::Behind),
    // Ends that are right modulo 65,536.
    ([(14, 2), (22, 0x4000), (22, 3)], 0, Fault::Beyond),
    ([(14, 2), (22, 0), (22, 0x4003)], 0, Fault::Beyond),
    ([(14, 0xffff), (10, 3), (22, 3)], 0, Fault::Beyond),
];

#[test]
fn tables() {
    assert!(read(&tabled([(14, 2), (22, 0), (22, 3)], 0)).is_ok());
    for (table, more, fault) in TABLES {
        falls_as_bytes(&tabled(table, more), fault);
    }
}

// ---------------------------------------------------------------------------------------------
// Events

#[test]
fn letters() {
    for letter in 0..=255 {
        let recording = Recording { nodes: 2, sections: vec![vec![event(letter, 0, 0, 0)]] };
        if b"stdib".contains(&letter) {
            stands(&recording);
        } else {
            falls(&recording, Fault::Letter);
        }
    }
}

#[test]
fn numbers_of_events() {
    for nodes in [1, 2, 5, 16] {
        for letter in *b"stdib" {
            let two = b"std".contains(&letter);
            for number in 0..=255 {
                let below = u32::from(number) < nodes;
                let first = Recording { nodes, sections: vec![vec![event(letter, number, 0, 0)]] };
                let second = Recording { nodes, sections: vec![vec![event(letter, 0, number, 0)]] };
                match below {
                    true => stands(&first),
                    false => falls(&first, Fault::Number),
                }
                match (two, below, number) {
                    (true, true, _) | (false, _, 0) => stands(&second),
                    (true, false, _) => falls(&second, Fault::Number),
                    (false, ..) => falls(&second, Fault::Second),
                }
            }
        }
    }
}

/// The test before 18 takes every answer; a replay takes one.
#[test]
fn answers() {
    for answer in 0..=255 {
        let mut recording = read(&WORKED_BYTES).unwrap();
        recording.sections[0][5].answer = answer;
        stands(&recording);
        let expected = if answer == 22 { Ok(14) } else { Err(Refusal::Differs(5)) };
        assert_eq!(replayed(&bytes_of(&recording), PLACES), expected);
    }
    assert_eq!(Refusal::Differs(5).number(), 19);
}

// ---------------------------------------------------------------------------------------------
// Lent memory

#[test]
fn memory_lent_to_the_reader() {
    let bytes = bytes_of(&sections(2, &[2, 0, 3]));
    let (counts, events) = ([7; 5], [0xee; 24]);
    let mut lent = (counts, events);
    assert_eq!(read_into(&bytes, &mut lent.0[..4], &mut lent.1[..23]), Ok([2, 3, 5]));
    assert_eq!(lent.0, [2, 0, 3, 7, 7]);
    assert_eq!((&lent.1[..20], &lent.1[20..]), (&bytes[14..], &events[20..]));
    let mut lent = (counts, events);
    assert_eq!(read_into(&bytes, &mut lent.0[..3], &mut lent.1[..20]), Ok([2, 3, 5]));
    for (sections, room) in [(2, 20), (3, 19), (0, 24), (5, 0), (2, 19)] {
        let mut lent = (counts, events);
        let answer = read_into(&bytes, &mut lent.0[..sections], &mut lent.1[..room]);
        assert_eq!((answer, lent), (Err(Refusal::Room), (counts, events)));
    }
    assert_eq!(Refusal::Room.number(), 14);
    // 18 comes first.
    let mut lent = (counts, events);
    let answer = read_into(&bytes[..33], &mut lent.0[..2], &mut lent.1[..19]);
    assert_eq!((answer, lent), (Err(Refusal::Broken(Fault::Beyond)), (counts, events)));
}

#[test]
fn memory_lent_to_the_writer() {
    let bytes = bytes_of(&sections(2, &[2, 0, 3]));
    let events = &bytes[14..];
    for room in 0..40 {
        let mut buffer = [0xee; 40];
        let answer = write_into(2, &[2, 0, 3], events, &mut buffer[..room]);
        let mut expected = [0xee; 40];
        if room >= 34 {
            expected[..34].copy_from_slice(&bytes);
        }
        assert_eq!(answer, if room >= 34 { Ok(34) } else { Err(Refusal::Room) });
        assert_eq!(buffer, expected);
    }
    assert_eq!(write_into(17, &[2, 0, 3], events, &mut []), Err(Refusal::Broken(Fault::Nodes)));
}

/// Counts that do not add up to the events there are.
#[test]
fn counts_of_the_writer() {
    let events = idles(5).iter().flat_map(Event::bytes).collect::<Vec<u8>>();
    let mut buffer = [0xee; 99];
    for counts in [&[5][..], &[2, 3], &[0, 5, 0], &[1, 1, 1, 1, 1]] {
        assert!(write_into(2, counts, &events, &mut buffer).is_ok());
    }
    buffer.fill(0xee);
    for counts in [
        &[4][..],
        &[6],
        &[20],
        &[2, 2],
        &[3, 3],
        &[],
        &[5 + 65_536],
        &[5 + 0x4000_0000],
        &[u32::MAX, 6],
        &[u32::MAX - 1, 7],
        &[0x8000_0000, 0x8000_0005],
    ] {
        let answer = write_into(2, counts, &events, &mut buffer);
        assert_eq!(answer, Err(Refusal::Broken(Fault::Counts)), "{counts:?}");
    }
    for length in [0, 16, 17, 18, 19] {
        let answer = write_into(2, &[5], &events[..length], &mut buffer);
        assert_eq!(answer, Err(Refusal::Broken(Fault::Counts)));
    }
    assert_eq!(write_into(2, &[], &[], &mut buffer), Err(Refusal::Broken(Fault::Sections)));
    assert_eq!(buffer, [0xee; 99]);
}

// ---------------------------------------------------------------------------------------------
// Replays

/// The position counts over all sections.
#[test]
fn the_position_of_an_answer() {
    let whole = read(&WORKED_BYTES).unwrap().sections.remove(0);
    let cut = vec![whole[..3].to_vec(), vec![], whole[3..10].to_vec(), whole[10..].to_vec(), vec![]];
    let recording = Recording { nodes: 2, sections: cut };
    assert_eq!(replayed(&bytes_of(&recording), PLACES), Ok(14));
    let mut position = 0;
    for section in 0..5 {
        for at in 0..recording.sections[section].len() {
            let mut other = recording.clone();
            other.sections[section][at].answer ^= 1;
            assert_eq!(replayed(&bytes_of(&other), PLACES), Err(Refusal::Differs(position)));
            // The first of two.
            other.sections[3][3].answer = 99;
            assert_eq!(replayed(&bytes_of(&other), PLACES), Err(Refusal::Differs(position)));
            position += 1;
        }
    }
    assert_eq!(position, 14);
}

/// The whole recording is tested before an event runs.
#[test]
fn a_broken_event_after_another_answer() {
    for (broken, fault) in [
        (event(b'x', 1, 0, 23), Fault::Letter),
        (event(b'b', 2, 0, 23), Fault::Number),
        (event(b'b', 1, 1, 23), Fault::Second),
    ] {
        let mut recording = read(&WORKED_BYTES).unwrap();
        recording.sections[0][1].answer = 21;
        assert_eq!(replayed(&bytes_of(&recording), PLACES), Err(Refusal::Differs(1)));
        recording.sections[0][13] = broken;
        falls(&recording, fault);
    }
}

/// 19 leaves in the places what the events up to and with that one put there.
#[test]
fn places_after_an_answer_that_differs() {
    let script = b"nodes 3\ns 0 1\ni 2\nb 2\nb 2\nd 0 1\n";
    let bytes = write(&record_script(script, PLACES).unwrap()).unwrap();
    let mut after_all = vec![0xee; 4 * LONGEST];
    assert_eq!(replay(&bytes, &mut after_all), Ok(5));
    for position in 0..5 {
        let mut other = bytes.clone();
        other[6 + 4 * position + 3] = 99;
        let mut places = vec![0xee; 4 * LONGEST];
        assert_eq!(replay(&other, &mut places), Err(Refusal::Differs(position as u32)));
        let lines: Vec<&[u8]> = script.split_inclusive(|&byte| byte == b'\n').collect();
        let mut expected = vec![0xee; 4 * LONGEST];
        let mut headers = vec![Header::default(); PLACES];
        rehearse_in(&lines[..position + 2].concat(), &mut headers, &mut expected);
        assert_eq!(places, expected);
        assert_eq!(places == after_all, position == 4);
    }
}

/// What the places hold after a replay that ends well: the two frames of the messenger moved down, the last
/// place as it was.
#[test]
fn places_after_a_replay() {
    let script = b"nodes 3\ns 0 1\ni 2\nb 2\nb 2\nd 0 1\n";
    let bytes = write(&record_script(script, 3).unwrap()).unwrap();
    let mut places = vec![0xee; 4 * LONGEST + 5];
    assert_eq!(replay(&bytes, &mut places), Ok(5));
    let mut frame = vec![0xee; LONGEST];
    frame[..20].fill(0);
    (frame[0], frame[2], frame[3]) = (1, 1, 2);
    assert_eq!(places, [frame.clone(), frame.clone(), frame, vec![0xee; LONGEST + 5]].concat());
}

/// Fewer places give 15 sooner, and only a recording that says so goes on.
#[test]
fn crowded_replays() {
    let lines = lines_of(b"nodes 2\ns 0 1\nt 0 1\ns 0 1\nd 0 1\ns 0 1\ni 0\nb 0\n").unwrap().1;
    for recorded in 0..6 {
        let recording = record(2, &lines, recorded, 3);
        let answers: Vec<u8> = recording.events().map(|event| event.answer).collect();
        let expected = match recorded {
            0 => [15, 15, 15, 16, 15, 0, 15],
            1 => [0, 15, 15, 0, 0, 0, 15],
            2 => [0, 0, 15, 0, 0, 0, 15],
            3 => [0, 0, 0, 0, 0, 0, 15],
            _ => [0, 0, 0, 0, 0, 0, 20],
        };
        assert_eq!(answers, expected);
        for lent in 0..6 {
            let differs = match recorded.min(lent) {
                _ if recorded.min(4) == lent.min(4) => None,
                0 => Some(0),
                1 => Some(1),
                2 => Some(2),
                _ => Some(6),
            };
            let expected = differs.map_or(Ok(7), |position| Err(Refusal::Differs(position)));
            assert_eq!(replayed(&bytes_of(&recording), lent), expected);
        }
    }
}

/// Bytes of a place that is not whole are none, and 512 places are all that is used.
#[test]
fn places_are_those_lent() {
    let lines = vec![Line::Send { work: Work::Job, a: 0, b: 1 }; 600];
    let all = bytes_of(&record(2, &lines, 600, 500));
    for lent in [PLACES, PLACES + 1, 600] {
        assert_eq!(replayed(&all, lent), Ok(600));
    }
    assert_eq!(replayed(&all, PLACES - 1), Err(Refusal::Differs(511)));
    assert_eq!(replay(&all, &mut vec![0; PLACES * LONGEST - 1]), Err(Refusal::Differs(511)));
    assert_eq!(replay(&all, &mut vec![0; LONGEST - 1]), Err(Refusal::Differs(0)));
    assert_eq!(replay(&all, &mut vec![0; 2 * LONGEST - 1]), Err(Refusal::Differs(1)));
    let answers: Vec<u8> = read(&all).unwrap().events().map(|event| event.answer).collect();
    assert_eq!(answers, [vec![0; 512], vec![15; 88]].concat());
}

// ---------------------------------------------------------------------------------------------
// Many recordings

/// The answers recorded are those printed, and the replay ends well with the places of the recording.
#[test]
fn the_scripts_of_the_repository() {
    let folder = Path::new(env!("CARGO_MANIFEST_DIR")).join("../../scripts");
    let mut recorded = 0;
    for entry in fs::read_dir(&folder).unwrap().map(Result::unwrap).filter(|entry| entry.path().is_file()) {
        let script = fs::read(entry.path()).unwrap();
        let printed = fs::read_to_string(folder.join("printed").join(entry.file_name())).unwrap();
        let recording = record_script(&script, PLACES).unwrap();
        let answers: Vec<String> = recording.events().map(|event| event.answer.to_string()).collect();
        let expected: Vec<&str> =
            printed.lines().skip(1).map(|line| line.split(' ').nth(1).unwrap()).collect();
        assert_eq!(answers, expected, "{:?}", entry.path());
        for places in [PLACES, 0, 1, 2, 5] {
            let recording = record_script(&script, places).unwrap();
            stands(&recording);
            let events = script.iter().filter(|&&byte| byte == b'\n').count() as u32 - 1;
            assert_eq!(replayed(&bytes_of(&recording), places), Ok(events), "{:?}", entry.path());
        }
        recorded += 1;
    }
    assert!(recorded > 15);
}

#[test]
fn scripts_without_a_recording() {
    for (script, number, line) in [
        (&b""[..], 17, 1),
        (b"nodes 17\n", 1, 1),
        (b"nodes 2\ni 0\ni 2\n", 17, 3),
        (b"nodes 2\ni 0", 17, 2),
        (&[b'x'; 4_097], 17, 0),
    ] {
        assert_eq!(record_script(script, PLACES), Err((number, line)));
    }
    assert_eq!(record_script(b"nodes 16\n", PLACES).unwrap(), sections(16, &[0]));
}

/// Whatever byte is altered, a recording is refused, or is the one that its bytes write.
#[test]
fn every_byte_altered() {
    let (mut same, mut broken) = (0, 0);
    for at in 0..WORKED_BYTES.len() {
        for value in 0..=255 {
            let mut bytes = WORKED_BYTES;
            bytes[at] = value;
            match read(&bytes) {
                Ok(recording) => {
                    assert_eq!(write(&recording).unwrap(), bytes);
                    same += 1;
                }
                Err(fault) => {
                    falls_as_bytes(&bytes, fault);
                    broken += 1;
                }
            }
        }
    }
    assert!(same > 14 * 256 && broken > 1_000);
}

/// A line as an event of a run.
fn event_of(line: Line) -> board::Event {
    match line {
        Line::Send { work, a, b } => board::Event::Send { work, at: a, to: b },
        Line::Idle { a } => board::Event::Idle { at: a },
        Line::Barrier { a } => board::Event::Barrier { at: a, room: LONGEST },
        Line::Deliver { a, b } => board::Event::Deliver { from: a, to: b },
    }
}

/// A replay that ends well is a run with the recorded answers, those answered 15 left out (rule K8): the board,
/// which checks rule P4 and rule P5, plays it.
#[test]
fn replays_are_runs() {
    let habits = Habits { job: 2, note: 2, idle: 12, barrier: 40, deliver: 40, lose: 0, odd: 0 };
    let mut random = Random::new(7);
    let (mut phases, mut crowded) = (0, 0);
    for round in 0..160 {
        let size = 1 + round % 16;
        let places = [PLACES, 1, 3, 9][round as usize / 16 % 4];
        let lines = random::lines(&mut random, size, 900, &habits);
        let bytes = write(&record(size, &lines, places, 100)).unwrap();
        assert_eq!(replayed(&bytes, places), Ok(900));
        let mut board = Board::new(size);
        for event in read(&bytes).unwrap().events().filter(|event| event.answer != 15) {
            let answer = match board.play(event_of(event.line(size).unwrap())) {
                Outcome::Call(answer) => answer.number(),
                Outcome::Step(answer) => answer.number(),
                Outcome::Nothing => 16,
            };
            assert_eq!(answer, event.answer);
        }
        crowded += read(&bytes).unwrap().events().filter(|event| event.answer == 15).count();
        phases += board.oldest();
    }
    assert!(phases > 400 && crowded > 1_000, "{phases} {crowded}");
}
