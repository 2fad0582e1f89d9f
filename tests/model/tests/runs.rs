//! Runs with rule P4 and rule P5 checked after every event.

use model::board::{Board, Event, Item, Load, Outcome};
use model::node::{self, Answer, Barrier, Node, Work};
use model::random::{self, Habits, Random};
use model::LONGEST;
use std::collections::{BTreeMap, HashSet};

/// Half the messages are notes.
const CALM: Habits = Habits { job: 2, note: 2, idle: 8, barrier: 40, deliver: 40, lose: 0, odd: 1 };

/// How often each number was answered, with rolled back positions as 100, and with notes taken as 101 by busy
/// nodes, as 102 by idle ones.
type Seen = BTreeMap<u8, u64>;

fn number(outcome: &Outcome) -> u8 {
    match outcome {
        Outcome::Call(answer) => answer.number(),
        Outcome::Step(answer) => answer.number(),
        Outcome::Nothing => 99,
    }
}

/// The node to which an event brings a note.
fn note_to(board: &Board, event: Event) -> Option<usize> {
    let Event::Deliver { from, to } = event else { return None };
    let oldest = board.links.iter().find(|item| item.from == from && item.to == to)?;
    matches!(oldest.load, Load::Work { work: Work::Note, .. }).then_some(to as usize)
}

fn step(board: &mut Board, random: &mut Random, habits: &Habits, seen: &mut Seen) {
    let event = random::event(random, board, habits);
    let before: Vec<_> = board.nodes.iter().map(|n| (n.pass, n.dim, n.busy)).collect();
    let noted = note_to(board, event);
    let outcome = board.play(event);
    *seen.entry(number(&outcome)).or_default() += 1;
    let back = |(was, is): (&(u8, u8, bool), &Node)| !is.busy && (is.pass, is.dim) < (was.0, was.1);
    if before.iter().zip(&board.nodes).any(back) {
        *seen.entry(100).or_default() += 1;
    }
    if let (Some(to), Outcome::Call(Answer::Done)) = (noted, &outcome) {
        *seen.entry(if before[to].2 { 101 } else { 102 }).or_default() += 1;
        assert_eq!(board.nodes[to].busy, before[to].2);
    }
}

/// Plays until every node has left so many phases.
fn run_phases(size: u32, phases: u64, habits: &Habits, seed: u64) -> Seen {
    let (mut board, mut random, mut seen) = (Board::new(size), Random::new(seed), Seen::new());
    let mut events = 0u64;
    while board.oldest() < phases {
        step(&mut board, &mut random, habits, &mut seen);
        events += 1;
        assert!(events < 20_000_000, "board of {size} is too slow");
    }
    seen
}

#[test]
fn runs_past_255_phases() {
    let mut all = Seen::new();
    for size in 1..=16 {
        for (answer, count) in run_phases(size, 260, &CALM, u64::from(size)) {
            *all.entry(answer).or_default() += count;
        }
    }
    for answer in [0, 2, 3, 4, 7, 12, 14, 20, 21, 22, 23, 100, 101, 102] {
        assert!(all.contains_key(&answer), "{answer} never came");
    }
    for answer in [1, 5, 6, 8, 9, 10, 11, 13] {
        assert!(!all.contains_key(&answer), "{answer} came");
    }
}

#[test]
fn a_long_run_of_16() {
    run_phases(16, 1100, &CALM, 77);
}

/// Boards whose messages are all jobs, or all notes.
#[test]
fn runs_with_one_kind_of_message() {
    for size in 2..=9 {
        let jobs = run_phases(size, 60, &Habits { job: 4, note: 0, odd: 0, ..CALM }, u64::from(size));
        assert!(!jobs.contains_key(&101) && !jobs.contains_key(&102));
        let notes = run_phases(size, 60, &Habits { job: 0, note: 4, odd: 0, ..CALM }, u64::from(size));
        assert!(notes.contains_key(&101) && notes.contains_key(&102) && notes.contains_key(&7));
    }
}

fn random_habits(random: &mut Random, lose: u32) -> Habits {
    Habits {
        job: 1 + random.below(10),
        note: 1 + random.below(10),
        idle: 1 + random.below(20),
        barrier: 1 + random.below(60),
        deliver: 1 + random.below(60),
        lose,
        odd: random.below(3),
    }
}

#[test]
fn many_short_runs() {
    let mut random = Random::new(3);
    for round in 0..12_000 {
        let mut board = Board::new(1 + round % 9);
        let habits = random_habits(&mut random, 0);
        for _ in 0..150 {
            step(&mut board, &mut random, &habits, &mut Seen::new());
        }
    }
}

#[test]
fn many_short_runs_with_losses() {
    let mut random = Random::new(4);
    let mut left_after_a_loss = 0;
    for round in 0..8_000 {
        let mut board = Board::new(1 + round % 9);
        let lose = 1 + random.below(4);
        let habits = random_habits(&mut random, lose);
        for _ in 0..200 {
            let mut seen = Seen::new();
            step(&mut board, &mut random, &habits, &mut seen);
            left_after_a_loss += u64::from(board.lost && seen.contains_key(&23));
        }
    }
    assert!(left_after_a_loss > 100);
}

/// With a lost job or note nobody ever leaves its phase, whatever comes after.
#[test]
fn a_lost_message_is_untaken_for_good() {
    let mut random = Random::new(5);
    for (size, work) in (2..=9).flat_map(|size| Work::BOTH.map(|work| (size, work))) {
        let mut board = Board::new(size);
        board.play(Event::Send { work, at: 0, to: size - 1 });
        board.play(Event::Lose { item: 0 });
        for _ in 0..20_000 {
            step(&mut board, &mut random, &CALM, &mut Seen::new());
        }
        assert_eq!(board.phases, vec![0; size as usize]);
        assert_eq!(board.untaken.iter().filter(|message| message.number == 0).count(), 1);
    }
}

/// One round: everybody rests, calls, and what is under way is delivered.
fn round(board: &mut Board) {
    for at in 0..board.nodes.len() as u32 {
        board.play(Event::Idle { at });
        board.play(Event::Barrier { at, room: LONGEST });
    }
    for (from, to) in board.links.iter().map(|item| (item.from, item.to)).collect::<Vec<_>>() {
        board.play(Event::Deliver { from, to });
    }
}

#[test]
fn boards_up_to_the_largest() {
    for size in [17, 31, 32, 33, 61, 63, 64, 65, 95, 96] {
        let mut board = Board::new(size);
        for at in 0..size {
            let other = (at * 7 + 3) % size;
            board.play(Event::Send { work: Work::BOTH[at as usize % 2], at, to: other });
        }
        let mut rounds = 0;
        while board.oldest() < 2 {
            round(&mut board);
            rounds += 1;
            assert!(rounds < 1000);
        }
    }
}

/// After phase 255 comes phase 0 (rule N13).
#[test]
fn phases_follow_255_by_0() {
    let mut board = Board::new(1);
    for count in 1..=600u64 {
        board.play(Event::Idle { at: 0 });
        let outcome = board.play(Event::Barrier { at: 0, room: 0 });
        assert_eq!(outcome, Outcome::Step(Barrier::Left));
        assert_eq!((board.phases[0], u64::from(board.nodes[0].phase)), (count, count % 256));
    }
}

// ---------------------------------------------------------------------------------------------
// Every run of small boards with few sends

/// What decides how a board goes on.
type Key = (Vec<Node>, Vec<u64>, Vec<Vec<Item>>, Vec<u64>);

fn key(board: &Board) -> Key {
    let size = board.nodes.len() as u32;
    let link = |from: u32, to: u32| -> Vec<Item> {
        let on_link = board.links.iter().filter(|item| item.from == from && item.to == to);
        on_link.cloned().map(without_number).collect()
    };
    let links = (0..size * size).map(|pair| link(pair / size, pair % size)).collect();
    let untaken = board.untaken.iter().map(|message| message.phase).collect();
    (board.nodes.clone(), board.phases.clone(), links, untaken)
}

fn without_number(mut item: Item) -> Item {
    if let Load::Work { message, .. } = &mut item.load {
        *message = 0;
    }
    item
}

/// Every event with good arguments; sends while some are left, losses where they are asked for.
fn events(board: &Board, sends: u64, losses: bool) -> Vec<Event> {
    let size = board.nodes.len() as u32;
    let mut events = vec![];
    for at in 0..size {
        events.push(Event::Idle { at });
        events.push(Event::Barrier { at, room: LONGEST });
        for other in (0..size).filter(|&other| other != at) {
            events.push(Event::Deliver { from: other, to: at });
            if board.messages < sends {
                events.extend(Work::BOTH.map(|work| Event::Send { work, at, to: other }));
            }
        }
    }
    if losses {
        events.extend((0..board.links.len()).map(|item| Event::Lose { item }));
    }
    events
}

/// Plays every list of events until all nodes have left so many phases. Gives the number of boards.
fn every_run(size: u32, sends: u64, phases: u64, losses: bool) -> usize {
    let mut open = vec![Board::new(size)];
    let mut met = HashSet::new();
    while let Some(board) = open.pop() {
        for event in events(&board, sends, losses) {
            let mut next = board.clone();
            next.play(event);
            let new = met.insert((next.messages, next.lost, key(&next)));
            if new && next.oldest() < phases {
                open.push(next);
            }
        }
    }
    met.len()
}

#[test]
fn every_run_of_small_boards() {
    assert!(every_run(2, 0, 3, false) > 100);
    assert!(every_run(2, 2, 2, false) > 1_000);
    assert!(every_run(2, 4, 1, false) > 10_000);
    assert!(every_run(3, 0, 1, false) > 1_000);
    assert!(every_run(3, 1, 1, false) > 10_000);
    assert!(every_run(4, 0, 1, false) > 1_000);
}

#[test]
fn every_run_of_small_boards_with_losses() {
    assert!(every_run(2, 2, 1, true) > 1_000);
    assert!(every_run(3, 0, 1, true) > 1_000);
}

// ---------------------------------------------------------------------------------------------
// The checker notices

fn resting_pair() -> Board {
    let mut board = Board::new(2);
    board.play(Event::Idle { at: 0 });
    board.play(Event::Idle { at: 1 });
    board
}

fn faults(board: &mut Board, event: Event) -> String {
    board.play_and_tell(event).1.join("; ")
}

/// A node of 2 that leaves on its next call.
fn about_to_leave() -> Node {
    let mut node = node::idle(node::fresh(2, 0).unwrap()).0;
    node.pass = 2;
    node.flag = false;
    node.first[0].present = true;
    node.second[0].present = true;
    node
}

#[test]
fn the_checker_notices_a_leaving_too_soon() {
    let leave = Event::Barrier { at: 0, room: 0 };
    let mut board = resting_pair();
    board.nodes[0] = about_to_leave();
    assert_eq!(faults(&mut board.clone(), leave), "");
    let mut busy = board.clone();
    (busy.nodes[1].busy, busy.busy[1]) = (true, true);
    assert!(faults(&mut busy, leave).contains("while 1 was busy"));
    let mut behind = board.clone();
    (behind.phases[0], behind.nodes[0].phase) = (1, 1);
    assert!(faults(&mut behind, leave).contains("before 1 reached it"));
    for work in Work::BOTH {
        let mut untaken = Board::new(2);
        untaken.play(Event::Send { work, at: 1, to: 0 });
        untaken.play(Event::Idle { at: 1 });
        (untaken.nodes[0], untaken.busy[0]) = (about_to_leave(), false);
        assert!(faults(&mut untaken, leave).contains("while a message of it was untaken"));
    }
}

#[test]
fn the_checker_notices_work_of_a_left_phase() {
    for work in Work::BOTH {
        let send = Event::Send { work, at: 1, to: 0 };
        let mut board = Board::new(2);
        board.play(send);
        let mut third = Board::new(3);
        third.play(send);
        (third.phases[2], third.nodes[2].phase) = (1, 1);
        assert!(faults(&mut third.clone(), send).contains("after a node left it"));
        assert!(faults(&mut third, Event::Deliver { from: 1, to: 0 }).contains("after a node left it"));
        assert_eq!(faults(&mut board, Event::Deliver { from: 1, to: 0 }), "");
    }
}

#[test]
fn the_checker_notices_a_state_that_differs_from_history() {
    let mut board = resting_pair();
    board.busy[0] = true;
    assert!(faults(&mut board, Event::Idle { at: 1 }).contains("the state of 0"));
    let mut board = resting_pair();
    board.phases[1] = 1;
    assert!(faults(&mut board, Event::Idle { at: 0 }).contains("the state of 1"));
}

#[test]
fn the_checker_notices_a_board_that_sticks() {
    let mut board = resting_pair();
    for at in 0..2 {
        board.play(Event::Barrier { at, room: LONGEST });
    }
    board.links.clear();
    assert!(faults(&mut board, Event::Idle { at: 0 }).contains("the board sticks"));
    board.lost = true;
    assert_eq!(faults(&mut board, Event::Idle { at: 0 }), "");
}

/// A delivery without an item does nothing (rule H4), and refused calls put nothing on a link (rule H3).
#[test]
fn refused_calls_change_nothing() {
    let mut board = resting_pair();
    let nodes = board.nodes.clone();
    assert_eq!(board.play(Event::Deliver { from: 0, to: 1 }), Outcome::Nothing);
    assert_eq!(board.play(Event::Lose { item: 0 }), Outcome::Nothing);
    for work in Work::BOTH {
        assert_eq!(board.play(Event::Send { work, at: 0, to: 1 }), Outcome::Call(Answer::Refused(4)));
        assert_eq!(board.play(Event::Send { work, at: 0, to: 0 }), Outcome::Call(Answer::Refused(3)));
        assert_eq!(board.play(Event::Send { work, at: 0, to: 2 }), Outcome::Call(Answer::Refused(2)));
    }
    let short = board.play(Event::Barrier { at: 0, room: 19 });
    assert_eq!(short, Outcome::Step(Barrier::Refused(14)));
    assert_eq!((board.nodes, board.links.len(), board.lost), (nodes, 0, false));
}
