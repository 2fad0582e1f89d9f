//! The rehearsal: the worked script, the form of a script, the places, and a board beside it.

use model::board::{Board, Event, Outcome};
use model::node::Work;
use model::random::{self, Habits, Random};
use model::rehearsal::{rehearse, rehearse_in, Header, Kind, PLACES, SCRIPT_LIMIT};
use model::LONGEST;
use std::fs;
use std::path::Path;

const HEADER: &str = "node answer phase pass dim flag busy\n";

fn play(script: &str) -> String {
    String::from_utf8(rehearse(script.as_bytes())).unwrap()
}

/// The lines after the header.
fn lines(script: &str) -> Vec<String> {
    let output = play(script);
    let rest = output.strip_prefix(HEADER).unwrap();
    assert!(rest.is_empty() || rest.ends_with('\n'));
    rest.lines().map(String::from).collect()
}

#[test]
fn the_worked_script() {
    let script = "nodes 2, i 0, b 0, i 1, d 0 1, b 1, b 1, b 1, d 1 0, b 0, b 0, d 1 0, b 0, d 0 1, b 1";
    let script = script.replace(", ", "\n") + "\n";
    let expected = "\
node answer phase pass dim flag busy
0 0 0 1 0 1 0
0 20 0 1 0 0 0
1 0 0 1 0 1 0
1 0 0 1 0 1 0
1 20 0 1 0 0 0
1 22 0 2 0 1 0
1 20 0 2 0 0 0
0 0 0 1 0 0 0
0 22 0 2 0 1 0
0 20 0 2 0 0 0
0 0 0 2 0 0 0
0 23 1 1 0 1 1
1 0 0 2 0 0 0
1 23 1 1 0 1 1
";
    assert_eq!(play(&script), expected);
}

/// Every script of the repository prints what stands beside it.
#[test]
fn the_scripts_of_the_repository() {
    let folder = Path::new(env!("CARGO_MANIFEST_DIR")).join("../../scripts");
    let mut played = 0;
    for entry in fs::read_dir(&folder).unwrap().map(Result::unwrap).filter(|entry| entry.path().is_file()) {
        let printed = fs::read(folder.join("printed").join(entry.file_name())).unwrap();
        assert!(rehearse(&fs::read(entry.path()).unwrap()) == printed, "{:?} prints otherwise", entry.path());
        played += 1;
    }
    assert_eq!(played, fs::read_dir(folder.join("printed")).unwrap().count());
}

#[test]
fn scripts_that_stop() {
    for (script, number, line) in [
        ("", 17, 1),
        ("\n", 17, 1),
        ("nodes 2", 17, 1),
        ("nodes 0\n", 1, 1),
        ("nodes 17\n", 1, 1),
        ("nodes 96\n", 1, 1),
        ("nodes 97\n", 1, 1),
        ("nodes 256\n", 1, 1),
        ("nodes 999\n", 1, 1),
        ("nodes 17", 17, 1),
        ("nodes 1000\n", 17, 1),
        ("nodes 02\n", 17, 1),
        ("nodes 00\n", 17, 1),
        ("nodes\n", 17, 1),
        ("nodes \n", 17, 1),
        ("nodes 2 \n", 17, 1),
        ("nodes  2\n", 17, 1),
        (" nodes 2\n", 17, 1),
        ("nodes 2 3\n", 17, 1),
        ("nodes +2\n", 17, 1),
        ("nodes -1\n", 17, 1),
        ("nodes 2\r\n", 17, 1),
        ("Nodes 2\n", 17, 1),
        ("i 0\n", 17, 1),
        ("nodes 2\n\n", 17, 2),
        ("nodes 2\nnodes 2\n", 17, 2),
        ("nodes 2\ni 2\n", 17, 2),
        ("nodes 2\ni 0", 17, 2),
        ("nodes 2\ni\n", 17, 2),
        ("nodes 2\ni \n", 17, 2),
        ("nodes 2\ni 0 1\n", 17, 2),
        ("nodes 2\ni 00\n", 17, 2),
        ("nodes 2\ns 0\n", 17, 2),
        ("nodes 2\ns 0 2\n", 17, 2),
        ("nodes 2\ns 0 1 1\n", 17, 2),
        ("nodes 2\ns 0 1 \n", 17, 2),
        ("nodes 2\ns0 1\n", 17, 2),
        ("nodes 2\nt 0\n", 17, 2),
        ("nodes 2\nt 0 2\n", 17, 2),
        ("nodes 2\nt 2 0\n", 17, 2),
        ("nodes 2\nt 0 1 1\n", 17, 2),
        ("nodes 2\nt 0 01\n", 17, 2),
        ("nodes 2\nt  0 1\n", 17, 2),
        ("nodes 2\nT 0 1\n", 17, 2),
        ("nodes 2\nts 0 1\n", 17, 2),
        ("nodes 2\nd 2 0\n", 17, 2),
        ("nodes 2\nb 0 1\n", 17, 2),
        ("nodes 2\nb 0x\n", 17, 2),
        ("nodes 2\nx 0\n", 17, 2),
        ("nodes 2\n \n", 17, 2),
    ] {
        assert_eq!(lines(script), [format!("stop {number} at line {line}")], "{script:?}");
    }
}

/// What was printed before a stop stands.
#[test]
fn lines_before_a_stop_stand() {
    assert_eq!(lines("nodes 2\n"), [""; 0]);
    assert_eq!(lines("nodes 2\ni 0\nb 9\ni 1\n"), ["0 0 0 1 0 1 0", "stop 17 at line 3"]);
    assert_eq!(lines("nodes 2\ni 0\nb 1"), ["0 0 0 1 0 1 0", "stop 17 at line 3"]);
}

#[test]
fn a_script_too_long() {
    let script = "nodes 16\n".to_string() + &"i 10\n".repeat(3) + &"i 0\n".repeat(1018);
    assert_eq!(script.len(), SCRIPT_LIMIT);
    assert!(lines(&script).iter().all(|line| line.ends_with(" 0 0 1 0 1 0")));
    assert_eq!(lines(&(script + "\n")), ["stop 17 at line 0"]);
    assert_eq!(lines(&"x".repeat(SCRIPT_LIMIT + 1)), ["stop 17 at line 0"]);
    assert_eq!(lines(&"x".repeat(SCRIPT_LIMIT)), ["stop 17 at line 1"]);
}

#[test]
fn a_board_of_one_leaves() {
    assert_eq!(lines("nodes 1\nb 0\ni 0\nb 0\n"), ["0 12 0 1 0 1 1", "0 0 0 1 0 1 0", "0 23 1 1 0 1 1"]);
}

#[test]
fn refusals_are_printed() {
    let script = "nodes 3\ns 0 0\ni 0\ns 0 1\nb 1\nd 0 1\nd 1 1\n";
    let expected = [
        "0 3 0 1 0 1 1",
        "0 0 0 1 0 1 0",
        "0 4 0 1 0 1 0",
        "1 12 0 1 0 1 1",
        "1 16 0 1 0 1 1",
        "1 16 0 1 0 1 1",
    ];
    assert_eq!(lines(script), expected);
    assert_eq!(lines(&script.replace("\ns ", "\nt ")), expected);
}

/// A node of two that has signed in takes a job, and another one a note.
#[test]
fn a_note_leaves_its_taker_idle() {
    let script = "nodes 2\ns 0 1\ni 1\nb 1\nd 0 1\nb 1\n";
    let head = ["0 0 0 1 0 1 1", "1 0 0 1 0 1 0", "1 20 0 1 0 0 0"];
    let woken = ["1 0 0 1 0 1 1", "1 12 0 1 0 1 1"];
    let idle = ["1 0 0 1 0 1 0", "1 20 0 1 0 0 0"];
    assert_eq!(lines(script), [&head[..], &woken].concat());
    assert_eq!(lines(&script.replace("s 0 1", "t 0 1")), [&head[..], &idle].concat());
}

/// The items of a link keep their order, whatever they are.
#[test]
fn jobs_and_notes_of_a_link_keep_their_order() {
    let sent = "nodes 2\nt 0 1\ns 0 1\nt 0 1\n";
    let taken = "i 1\nd 0 1\nd 0 1\ni 1\nd 0 1\nd 0 1\n";
    let expected = [
        "1 0 0 1 0 1 0",
        "1 0 0 1 0 1 0", // a note
        "1 0 0 1 0 1 1", // the job
        "1 0 0 1 0 1 0",
        "1 0 0 1 0 1 0", // a note
        "1 16 0 1 0 1 0",
    ];
    assert_eq!(lines(&(sent.to_string() + taken))[3..], expected);
}

/// An early item stays (rule S8): the worked script up to where 0 has left, and 0 sends on.
#[test]
fn an_early_item_stays() {
    let head = "nodes 2\ni 0\nb 0\ni 1\nd 0 1\nb 1\nb 1\nb 1\nd 1 0\nb 0\nb 0\nd 1 0\nb 0\n";
    let script = head.to_string() + "d 0 1\ns 0 1\nd 0 1\nd 0 1\nb 1\nd 0 1\nd 0 1\n";
    let all = lines(&script);
    assert_eq!(lines(&script.replace("s 0 1", "t 0 1")), all);
    let expected = [
        "1 0 0 2 0 0 0", // the pass 2 frame of 0
        "0 0 1 1 0 1 1",
        "1 7 0 2 0 0 0",
        "1 7 0 2 0 0 0",
        "1 23 1 1 0 1 1",
        "1 0 1 1 0 1 1",
        "1 16 1 1 0 1 1",
    ];
    assert_eq!(all[12..], expected);
}

/// 512 sends are done and the next gives 15; a place that is freed is used again.
#[test]
fn places_for_512_items() {
    let script = "nodes 2\n".to_string() + &"s 0 1\n".repeat(513) + "d 0 1\ns 0 1\ns 0 1\ns 0 0\ni 1\nb 1\n";
    let all = lines(&script);
    assert_eq!(lines(&script.replace("s 0", "t 0")), all);
    assert!(all[..512].iter().all(|line| line == "0 0 0 1 0 1 1"));
    let expected = [
        "0 15 0 1 0 1 1",
        "1 0 0 1 0 1 1",
        "0 0 0 1 0 1 1",
        "0 15 0 1 0 1 1",
        "0 3 0 1 0 1 1",
        "1 0 0 1 0 1 0",
        "1 15 0 1 0 1 0",
    ];
    assert_eq!(all[512..], expected);
}

/// A messenger needs two places. Node 2 of 3 is alone in 0 and the messenger in 1.
#[test]
fn a_messenger_needs_two_places() {
    let tail = "i 2\nb 2\nb 2\n";
    let two_left = "nodes 3\n".to_string() + &"s 0 1\n".repeat(510) + tail;
    assert_eq!(lines(&two_left)[510..], ["2 0 0 1 0 1 0", "2 22 0 1 1 1 0", "2 20 0 1 1 0 0"]);
    let one_left = "nodes 3\n".to_string() + &"s 0 1\n".repeat(511) + tail;
    assert_eq!(lines(&one_left)[511..], ["2 0 0 1 0 1 0", "2 22 0 1 1 1 0", "2 15 0 1 1 1 0"]);
    let none_left = "nodes 3\n".to_string() + &"s 0 1\n".repeat(512) + tail;
    assert_eq!(lines(&none_left)[512..], ["2 0 0 1 0 1 0", "2 22 0 1 1 1 0", "2 15 0 1 1 1 0"]);
}

/// Fewer places lent give 15 sooner, and nothing outside the places is touched.
#[test]
fn places_are_those_lent() {
    let script = b"nodes 2\ns 0 1\ns 0 1\ns 0 1\n";
    for (headers, bytes, places) in
        [(2, 9 * LONGEST, 2), (9, 2 * LONGEST, 2), (9, 2 * LONGEST - 1, 1), (0, 0, 0)]
    {
        let mut lent = vec![Header { phase: 99, ..Header::default() }; headers];
        let mut buffer = vec![0xee; bytes];
        let output = String::from_utf8(rehearse_in(script, &mut lent, &mut buffer)).unwrap();
        let crowded = output.lines().filter(|line| line.starts_with("0 15 ")).count();
        assert_eq!(crowded, 3 - places);
        assert!(buffer.iter().all(|&byte| byte == 0xee));
        assert!(lent[places..].iter().all(|header| header.phase == 99));
        assert!(lent[..places].iter().all(|header| header.phase == 0));
    }
    let script = "nodes 2\n".to_string() + &"s 0 1\n".repeat(600);
    let mut lent = vec![Header { phase: 99, ..Header::default() }; 600];
    rehearse_in(script.as_bytes(), &mut lent, &mut vec![0; 600 * LONGEST]);
    assert!(lent[..PLACES].iter().all(|header| header.phase == 0));
    assert!(lent[PLACES..].iter().all(|header| header.phase == 99));
}

/// What the lent memory holds after frames are put and removed (rule S6).
#[test]
fn the_lent_memory() {
    let mut headers = vec![Header::default(); 4];
    let mut buffer = vec![0xee; 4 * LONGEST];
    rehearse_in(b"nodes 3\ns 0 1\ni 2\nb 2\nb 2\n", &mut headers, &mut buffer);
    let job = Header { from: 0, to: 1, kind: Kind::Job, phase: 0 };
    let near = Header { from: 2, to: 0, kind: Kind::Frame, phase: 0 };
    let hermit = Header { from: 2, to: 1, kind: Kind::Frame, phase: 0 };
    assert_eq!(headers, [job, near, hermit, Header::default()]);
    let mut frame = vec![0xee; LONGEST];
    frame[..20].fill(0);
    (frame[0], frame[2], frame[3]) = (1, 1, 2);
    let untouched = vec![0xee; LONGEST];
    let places = [untouched.clone(), frame.clone(), frame.clone(), untouched.clone()];
    assert_eq!(buffer, places.concat());

    let mut headers = vec![Header::default(); 4];
    let mut buffer = vec![0xee; 4 * LONGEST];
    rehearse_in(b"nodes 3\ns 0 1\ni 2\nb 2\nb 2\nd 0 1\n", &mut headers, &mut buffer);
    assert_eq!(headers, [near, hermit, hermit, Header::default()]);
    assert_eq!(buffer, [frame.clone(), frame.clone(), frame, untouched].concat());
}

/// A note has a place as a job has one, with another kind and no bytes.
#[test]
fn the_place_of_a_note() {
    let mut headers = vec![Header::default(); 3];
    let mut buffer = vec![0xee; 3 * LONGEST];
    rehearse_in(b"nodes 3\nt 2 1\ns 2 1\n", &mut headers, &mut buffer);
    let note = Header { from: 2, to: 1, kind: Kind::Note, phase: 0 };
    assert_eq!(headers, [note, Header { kind: Kind::Job, ..note }, Header::default()]);
    assert!(buffer.iter().all(|&byte| byte == 0xee));
}

/// The printed line of an event on a board.
fn board_line(board: &mut Board, event: Event) -> String {
    let outcome = board.play(event);
    let (at, answer) = match (event, outcome) {
        (Event::Deliver { to, .. }, Outcome::Nothing) => (to, 16),
        (Event::Deliver { to, .. }, Outcome::Call(answer)) => (to, answer.number()),
        (Event::Send { at, .. } | Event::Idle { at }, Outcome::Call(answer)) => (at, answer.number()),
        (Event::Barrier { at, .. }, Outcome::Step(answer)) => (at, answer.number()),
        other => panic!("{other:?}"),
    };
    let n = &board.nodes[at as usize];
    let (flag, busy) = (u8::from(n.flag), u8::from(n.busy));
    format!("{at} {answer} {} {} {} {flag} {busy}", n.phase, n.pass, n.dim)
}

fn script_line(event: Event) -> String {
    match event {
        Event::Send { work: Work::Job, at, to } => format!("s {at} {to}\n"),
        Event::Send { work: Work::Note, at, to } => format!("t {at} {to}\n"),
        Event::Idle { at } => format!("i {at}\n"),
        Event::Barrier { at, .. } => format!("b {at}\n"),
        Event::Deliver { from, to } => format!("d {from} {to}\n"),
        Event::Lose { .. } => unreachable!(),
    }
}

/// Random scripts print what a board answers.
#[test]
fn rehearsals_are_runs() {
    let habits = Habits { job: 2, note: 2, idle: 12, barrier: 40, deliver: 40, lose: 0, odd: 0 };
    let mut random = Random::new(6);
    let mut phases = 0;
    for round in 0..400 {
        let size = 1 + round % 16;
        let (mut board, mut script, mut expected) = (Board::new(size), format!("nodes {size}\n"), vec![]);
        loop {
            let event = random::event(&mut random, &board, &habits);
            let line = script_line(event);
            if script.len() + line.len() > SCRIPT_LIMIT {
                break;
            }
            script += &line;
            expected.push(board_line(&mut board, event));
        }
        phases += board.oldest();
        assert_eq!(lines(&script), expected);
    }
    assert!(phases > 1_000);
}
