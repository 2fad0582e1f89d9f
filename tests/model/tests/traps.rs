//! Runs that a simpler barrier gets wrong, with rule P4 and rule P5 checked.

use model::board::{Board, Event, Outcome};
use model::node::{failing, Answer, Barrier, Work};
use model::LONGEST;

fn send(board: &mut Board, at: u32, to: u32) {
    put(board, Work::Job, at, to);
}

fn note(board: &mut Board, at: u32, to: u32) {
    put(board, Work::Note, at, to);
}

fn put(board: &mut Board, work: Work, at: u32, to: u32) {
    assert_eq!(board.play(Event::Send { work, at, to }), Outcome::Call(Answer::Done));
}

fn idle(board: &mut Board, at: u32) {
    assert_eq!(board.play(Event::Idle { at }), Outcome::Call(Answer::Done));
}

fn deliver(board: &mut Board, from: u32, to: u32) {
    assert_eq!(board.play(Event::Deliver { from, to }), Outcome::Call(Answer::Done));
}

fn barrier(board: &mut Board, at: u32) -> Barrier {
    match board.play(Event::Barrier { at, room: LONGEST }) {
        Outcome::Step(answer) => answer,
        other => panic!("{other:?}"),
    }
}

/// These clauses fail at the node, and its wait names the lowest of them (rule N17).
fn waits(board: &mut Board, at: u32, clauses: &[u8]) {
    let node = &board.nodes[at as usize];
    assert_eq!(failing(node, node.pass, u32::from(node.dim)), clauses);
    assert_eq!(barrier(board, at), Barrier::Waits { clause: clauses[0] });
}

fn signs_in(board: &mut Board, at: u32, to: u32) {
    assert!(matches!(barrier(board, at), Barrier::Sent { receivers, .. } if receivers == [to]));
}

/// Barrier calls and deliveries, and no idle call, until all have left phase 0.
fn ends_its_phase(board: &mut Board) {
    let size = board.nodes.len();
    let mut rounds = 0;
    while board.oldest() == 0 {
        for at in (0..size).filter(|&at| board.phases[at] == 0).collect::<Vec<_>>() {
            barrier(board, at as u32);
        }
        while let Some(item) = board.links.iter().find(|item| board.phases[item.to as usize] >= item.phase) {
            let (from, to) = (item.from, item.to);
            board.play(Event::Deliver { from, to });
        }
        rounds += 1;
        assert!(rounds < 100);
    }
    assert_eq!(board.phases, vec![1; size]);
}

/// The run of rule P7 up to the point where node 0 finds that sums of different moments agree.
fn trapped() -> Board {
    let mut board = Board::new(4);
    // Node 2 has neither sent nor taken anything when it signs in.
    idle(&mut board, 2);
    signs_in(&mut board, 2, 3);
    // A message from 1 to 2 stays under way for long.
    send(&mut board, 1, 2);
    idle(&mut board, 1);
    signs_in(&mut board, 1, 0);
    deliver(&mut board, 1, 0);
    // Work wakes 1 again, which sends some itself.
    send(&mut board, 3, 1);
    deliver(&mut board, 3, 1);
    send(&mut board, 1, 3);
    // So 3 tells 2 of one message each way with the other half.
    deliver(&mut board, 1, 3);
    idle(&mut board, 3);
    signs_in(&mut board, 3, 2);
    deliver(&mut board, 3, 2);
    // Node 2 passes that on to 0.
    assert_eq!(barrier(&mut board, 2), Barrier::Moved);
    signs_in(&mut board, 2, 0);
    deliver(&mut board, 2, 0);
    // Only now the slow message comes, and 2 sends work on.
    deliver(&mut board, 1, 2);
    send(&mut board, 2, 0);
    // Node 0 takes it, and by the first frame of 1 its half has one message each way too.
    deliver(&mut board, 2, 0);
    idle(&mut board, 0);
    signs_in(&mut board, 0, 1);
    assert_eq!(barrier(&mut board, 0), Barrier::Moved);
    board
}

/// Rule P7: it moves to pass 2 with T = 2, and waits there.
#[test]
fn leaving_after_one_pass() {
    let mut board = trapped();
    assert!(board.nodes[1].busy);
    signs_in(&mut board, 0, 2);
    assert_eq!(barrier(&mut board, 0), Barrier::Moved);
    let node = &board.nodes[0];
    assert_eq!((node.pass, node.dim, node.flag, node.t), (2, 0, true, 2));
    signs_in(&mut board, 0, 1);
    for _ in 0..3 {
        waits(&mut board, 0, &[0]);
    }
}

/// The same board ends its phase once everybody rests.
#[test]
fn the_trapped_board_ends_its_phase() {
    let mut board = trapped();
    for at in 0..4 {
        idle(&mut board, at);
    }
    ends_its_phase(&mut board);
}

/// A note that comes after its receiver has signed in takes it back without waking it (rule N6). It signs in
/// again with the tally, and the board leaves, all without another idle call.
#[test]
fn a_note_after_signing_in() {
    let mut board = Board::new(4);
    note(&mut board, 2, 0);
    for at in 0..4 {
        idle(&mut board, at);
    }
    signs_in(&mut board, 0, 1);
    signs_in(&mut board, 1, 0);
    deliver(&mut board, 1, 0);
    assert_eq!(barrier(&mut board, 0), Barrier::Moved);
    signs_in(&mut board, 0, 2);
    assert_eq!((board.nodes[0].pass, board.nodes[0].dim), (1, 1));
    deliver(&mut board, 2, 0);
    let back = &board.nodes[0];
    assert_eq!((back.pass, back.dim, back.flag, back.busy), (1, 0, true, false));
    assert_eq!((back.taken[1], board.nodes[2].sent[1]), (1, 1));
    signs_in(&mut board, 0, 1);
    assert_eq!(barrier(&mut board, 0), Barrier::Moved);
    signs_in(&mut board, 0, 2);
    ends_its_phase(&mut board);
}

/// Nobody leaves while a note is untaken, though all are idle and every frame has come.
#[test]
fn a_slow_note_keeps_all_from_leaving() {
    let mut board = Board::new(2);
    note(&mut board, 0, 1);
    for at in [1, 0] {
        idle(&mut board, at);
    }
    signs_in(&mut board, 1, 0);
    deliver(&mut board, 1, 0);
    signs_in(&mut board, 0, 1);
    for _ in 0..3 {
        waits(&mut board, 0, &[1, 4]);
    }
    deliver(&mut board, 0, 1);
    ends_its_phase(&mut board);
}

/// A note of the next phase stays on its link until its receiver has left (7), and is taken then.
#[test]
fn an_early_note_is_taken_later() {
    let mut board = Board::new(2);
    idle(&mut board, 0);
    idle(&mut board, 1);
    for to in [1, 0] {
        signs_in(&mut board, 1 - to, to);
        deliver(&mut board, 1 - to, to);
    }
    for to in [0, 1] {
        assert_eq!(barrier(&mut board, 1 - to), Barrier::Moved);
        signs_in(&mut board, 1 - to, to);
    }
    deliver(&mut board, 1, 0);
    assert_eq!(barrier(&mut board, 0), Barrier::Left);
    note(&mut board, 0, 1);
    deliver(&mut board, 0, 1);
    let waiting = board.nodes[1];
    for _ in 0..2 {
        let outcome = board.play(Event::Deliver { from: 0, to: 1 });
        assert_eq!((outcome, board.nodes[1]), (Outcome::Call(Answer::Refused(7)), waiting));
    }
    assert_eq!(barrier(&mut board, 1), Barrier::Left);
    idle(&mut board, 1);
    deliver(&mut board, 0, 1);
    assert_eq!((board.nodes[1].busy, board.nodes[1].taken[0], board.links.len()), (false, 1, 0));
}

/// A take sets flag 1 (rule N6); with flag 0 the new tally would never go out.
#[test]
fn a_new_tally_goes_out_after_a_take() {
    let mut board = Board::new(2);
    idle(&mut board, 1);
    signs_in(&mut board, 1, 0);
    send(&mut board, 0, 1);
    deliver(&mut board, 0, 1);
    idle(&mut board, 1);
    signs_in(&mut board, 1, 0);
    idle(&mut board, 0);
    deliver(&mut board, 1, 0);
    signs_in(&mut board, 0, 1);
    waits(&mut board, 0, &[1, 4]);
    deliver(&mut board, 1, 0);
    assert_eq!(barrier(&mut board, 0), Barrier::Moved);
    assert_eq!(board.nodes[0].t, 1);
}

/// A frame that takes the position back leaves the node's tallies alone (rule N8).
#[test]
fn a_rollback_undoes_no_tally() {
    let mut board = trapped();
    idle(&mut board, 1);
    signs_in(&mut board, 1, 0);
    let before = board.nodes[0];
    assert_eq!((before.pass, before.dim), (1, 1));
    deliver(&mut board, 1, 0);
    let after = board.nodes[0];
    assert_eq!((after.pass, after.dim, after.flag), (1, 0, false));
    assert_eq!((after.sent, after.taken), (before.sent, before.taken));
    assert_eq!(after.first[1], before.first[1]);
}
