//! The state test, one condition after the other, and the clauses of a step.

use model::node::{
    agrees, barrier, failing, frame_in, fresh, idle, lowest_failing, own_sum_pass_2, own_sums, send,
    state_stands, take, Answer, Barrier, First, Node, Second, Work,
};
use model::{FIELD_LIMIT, LONGEST, NODES, SENT_LIMIT, SHELLS, TAKEN_LIMIT};

/// Node 0 of a board of 4 at (2, 1), all steps agreeing, T = 4.
fn late_state() -> Node {
    let mut node = Node { busy: false, pass: 2, dim: 1, flag: true, t: 4, ..fresh(4, 0).unwrap() };
    node.sent[0] = 1;
    node.taken[1] = 1;
    node.first[0] = First { present: true, total_sent: 2, total_taken: 1, ..First::default() };
    node.first[0].taken[0] = 1;
    node.first[0].sent[1] = 2;
    node.first[1] = First { present: true, total_sent: 1, total_taken: 2, ..First::default() };
    node.first[1].sent[1] = 1;
    node.first[1].taken[1] = 2;
    node.second[0] = Second { present: true, t: 4, total_sent: 2 };
    node.second[1] = Second { present: true, t: 4, total_sent: 1 };
    node
}

fn changed(base: Node, change: fn(&mut Node)) -> Node {
    let mut node = base;
    change(&mut node);
    node
}

/// Every call answers 13 and gives back the state it got.
fn assert_13(node: Node) {
    assert!(!state_stands(&node), "{node:?}");
    assert_eq!(send(node, 1), (node, Answer::Refused(13)));
    for work in Work::BOTH {
        assert_eq!(take(node, work, 1, node.phase), (node, Answer::Refused(13)));
    }
    assert_eq!(idle(node), (node, Answer::Refused(13)));
    assert_eq!(frame_in(node, &[]), (node, Answer::Refused(13)));
    let mut buffer = [0x77; LONGEST];
    assert_eq!(barrier(node, &mut buffer), (node, Barrier::Refused(13)));
    assert_eq!(buffer, [0x77; LONGEST]);
}

#[test]
fn the_late_state_stands_and_leaves() {
    let node = late_state();
    assert!(state_stands(&node));
    for (pass, k) in [(1, 0), (1, 1), (2, 0), (2, 1)] {
        assert!(agrees(&node, pass, k));
    }
    assert_eq!(own_sums(&node, 1).sent[1], 2);
    assert_eq!((own_sums(&node, 1).total_sent, own_sums(&node, 1).total_taken), (3, 2));
    assert_eq!((own_sum_pass_2(&node, 0), own_sum_pass_2(&node, 1)), (1, 3));
    let (after, answer) = barrier(Node { flag: false, ..node }, &mut []);
    assert_eq!((after, answer), (Node { phase: 1, ..fresh(4, 0).unwrap() }, Barrier::Left));
}

#[test]
fn changes_that_give_13() {
    let changes: [fn(&mut Node); 50] = [
        |n| n.board = 0,
        |n| n.board = NODES + 1,
        |n| n.board = u32::MAX,
        |n| n.number = 4,
        |n| n.number = u32::MAX,
        |n| n.pass = 0,
        |n| n.pass = 3,
        |n| n.pass = 255,
        |n| n.pass = 1,
        |n| n.dim = 2,
        |n| n.dim = 255,
        |n| n.busy = true,
        |n| n.t = 3,
        |n| n.t = 0,
        |n| n.t = u32::MAX,
        |n| n.sent[0] = 0,
        |n| n.sent[0] = u32::MAX,
        |n| n.sent = [u32::MAX; SHELLS],
        |n| n.taken = [u32::MAX; SHELLS],
        |n| n.sent[1] = 1,
        |n| n.sent[2] = 1,
        |n| n.sent[SHELLS - 1] = 1,
        |n| n.taken[0] = 1,
        |n| n.taken[2] = 1,
        |n| n.taken[SHELLS - 1] = 1,
        |n| n.first[0] = First::default(),
        |n| n.first[0].present = false,
        |n| n.first[0].sent[0] = 1,
        |n| n.first[0].taken[0] = 0,
        |n| n.first[0].sent[1] = 1,
        |n| n.first[0].taken[1] = 1,
        |n| n.first[0].sent[2] = 1,
        |n| n.first[0].taken[SHELLS - 1] = 1,
        |n| n.first[0].total_sent = 3,
        |n| n.first[0].total_taken = 0,
        |n| n.first[1] = First::default(),
        |n| n.first[1].sent[0] = 1,
        |n| n.first[1].taken[0] = 1,
        |n| n.first[1].total_taken = 3,
        |n| n.first[2].present = true,
        |n| n.first[SHELLS - 1].present = true,
        |n| n.first[3].total_sent = 1,
        |n| n.first[5].sent[5] = 1,
        |n| n.second[0] = Second::default(),
        |n| n.second[0].t = 3,
        |n| n.second[1].t = FIELD_LIMIT + 1,
        |n| n.second[1].total_sent = FIELD_LIMIT + 1,
        |n| n.second[2].present = true,
        |n| n.second[2].t = 1,
        |n| n.second[5].total_sent = 1,
    ];
    for change in changes {
        assert_13(changed(late_state(), change));
    }
}

#[test]
fn changes_that_stand() {
    let changes: [fn(&mut Node); 8] = [
        |n| n.flag = false,
        |n| n.phase = 200,
        |n| n.second[1] = Second::default(),
        |n| n.second[1].t = FIELD_LIMIT,
        |n| n.second[1].total_sent = FIELD_LIMIT,
        |n| n.second[0].total_sent = FIELD_LIMIT - 1,
        |n| n.dim = 0,
        |n| (n.pass, n.dim, n.t) = (1, 0, 0),
    ];
    for change in changes {
        assert!(state_stands(&changed(late_state(), change)));
    }
    // Clause 3 of the step (2, 0) before the position.
    assert_13(changed(late_state(), |n| n.second[0].total_sent = FIELD_LIMIT));
}

/// A fresh node of the largest board stands, and with one node more on the board it does not, though p would be
/// the same up to 128 nodes.
#[test]
fn the_largest_board() {
    for number in [0, 47, 95] {
        let node = fresh(96, number).unwrap();
        assert!(state_stands(&node));
        assert_eq!(idle(node).1, Answer::Done);
        for board in [97, 98, 127, 128, 129, 255, 256, 257, u32::MAX] {
            assert_13(Node { board, ..node });
        }
        assert_13(Node { number: 96, ..node });
    }
}

#[test]
fn a_busy_node_is_at_the_start() {
    let busy = fresh(4, 1).unwrap();
    assert!(state_stands(&busy));
    assert_13(Node { flag: false, ..busy });
    assert!(state_stands(&Node { flag: false, busy: false, ..busy }));
    let mut stored = busy;
    stored.first[1] = First { present: true, ..First::default() };
    stored.second[0] = Second { present: true, ..Second::default() };
    assert!(state_stands(&stored));
}

#[test]
fn a_board_of_one() {
    let node = fresh(1, 0).unwrap();
    assert!(state_stands(&node));
    let resting = Node { busy: false, ..node };
    for flag in [false, true] {
        let (after, answer) = barrier(Node { flag, phase: 255, ..resting }, &mut []);
        assert_eq!((after, answer), (node, Barrier::Left));
    }
    assert_eq!(barrier(node, &mut []), (node, Barrier::Refused(12)));
    let changes: [fn(&mut Node); 7] = [
        |n| n.pass = 2,
        |n| n.dim = 1,
        |n| n.t = 1,
        |n| n.sent[0] = 1,
        |n| n.taken[0] = 1,
        |n| n.first[0].present = true,
        |n| n.second[0].present = true,
    ];
    for change in changes {
        assert_13(changed(resting, change));
    }
    assert_13(Node { flag: false, ..node });
    assert_eq!(send(node, 0).1, Answer::Refused(3));
    assert_eq!(send(node, 1).1, Answer::Refused(2));
    assert_eq!(frame_in(node, &[1, 0, 0]).1, Answer::Refused(9));
    assert_eq!(frame_in(node, &[1, 0, 0, 0]).1, Answer::Refused(10));
}

/// No frame is stored for a step that awaits none (rule R5): node 2 of 6 is alone in 0.
#[test]
fn an_alone_step_stores_nothing() {
    let node = fresh(6, 2).unwrap();
    for k in 1..3 {
        assert!(state_stands(&stored_at(node, 1, k)));
        assert!(state_stands(&stored_at(node, 2, k)));
    }
    for k in [0, 3, SHELLS - 1] {
        assert_13(stored_at(node, 1, k));
        assert_13(stored_at(node, 2, k));
    }
}

fn stored_at(node: Node, pass: u8, k: usize) -> Node {
    let mut node = node;
    if pass == 1 {
        node.first[k].present = true;
    } else {
        node.second[k].present = true;
    }
    node
}

#[test]
fn tallies_at_their_limits() {
    let node = fresh(4, 0).unwrap();
    for (sent, taken, stands) in [
        ([SENT_LIMIT, 0], [TAKEN_LIMIT, 0], true),
        ([SENT_LIMIT - 1, 1], [1, TAKEN_LIMIT - 1], true),
        ([SENT_LIMIT + 1, 0], [0, 0], false),
        ([SENT_LIMIT, 1], [0, 0], false),
        ([0, 0], [0, TAKEN_LIMIT + 1], false),
        ([0, 0], [1, TAKEN_LIMIT], false),
        ([1, u32::MAX], [0, 0], false),
    ] {
        let mut full = node;
        full.sent[..2].copy_from_slice(&sent);
        full.taken[..2].copy_from_slice(&taken);
        assert_eq!(state_stands(&full), stands);
    }
}

#[test]
fn stored_fields_at_their_limits() {
    for (number, stands) in [(FIELD_LIMIT, true), (FIELD_LIMIT + 1, false), (u32::MAX, false)] {
        let mut all = [fresh(4, 0).unwrap(); 8];
        all.iter_mut().for_each(|node| (node.first[0].present, node.second[1].present) = (true, true));
        all[0].first[0].sent[0] = number;
        all[1].first[0].sent[1] = number;
        all[2].first[0].taken[0] = number;
        all[3].first[0].taken[1] = number;
        all[4].first[0].total_sent = number;
        all[5].first[0].total_taken = number;
        all[6].second[1].t = number;
        all[7].second[1].total_sent = number;
        for node in all {
            assert_eq!(state_stands(&node), stands);
        }
    }
}

/// An idle node 0 of 4 at (1, 0), with an all-zero frame from 1.
fn looking() -> Node {
    let node = Node { busy: false, flag: false, ..fresh(4, 0).unwrap() };
    changed(node, |n| n.first[0].present = true)
}

/// These clauses of a step fail, and the first of them is the one that a wait names (rule N17).
fn assert_fail(node: &Node, pass: u8, k: u32, clauses: &[u8]) {
    assert_eq!(failing(node, pass, k), clauses);
    assert_eq!(lowest_failing(node, pass, k), Some(clauses[0]));
}

#[test]
fn clauses_of_pass_1() {
    let base = looking();
    assert!(agrees(&base, 1, 0));
    assert_fail(&base, 1, 1, &[0]);
    assert_fail(&base, 2, 0, &[0]);
    assert_fail(&changed(base, |n| n.sent[0] = 1), 1, 0, &[1]);
    assert_fail(&changed(base, |n| n.first[0].taken[0] = 1), 1, 0, &[1]);
    assert_fail(&changed(base, |n| n.taken[0] = 1), 1, 0, &[2]);
    assert_fail(&changed(base, |n| n.first[0].sent[0] = 1), 1, 0, &[2]);
    assert_fail(&changed(base, |n| (n.sent[0], n.taken[0]) = (1, 1)), 1, 0, &[1, 2]);
    // Tallies of a higher shell and totals do not count in dimension 0.
    assert!(agrees(&changed(base, |n| (n.sent[1], n.first[0].total_taken) = (5, 9)), 1, 0));
}

#[test]
fn clause_3_of_pass_1_at_the_limit() {
    let base = changed(looking(), |n| (n.sent[1], n.taken[1]) = (5, 6));
    type Change = fn(&mut Node, u32);
    let changes: [(Change, u32); 4] = [
        (|n, by| n.first[0].sent[1] = FIELD_LIMIT - by, 5),
        (|n, by| n.first[0].taken[1] = FIELD_LIMIT - by, 6),
        (|n, by| n.first[0].total_sent = FIELD_LIMIT - by, 5),
        (|n, by| n.first[0].total_taken = FIELD_LIMIT - by, 6),
    ];
    for (change, own) in changes {
        let mut node = base;
        change(&mut node, own);
        assert!(state_stands(&node) && agrees(&node, 1, 0));
        change(&mut node, own - 1);
        assert!(state_stands(&node));
        assert_fail(&node, 1, 0, &[3]);
    }
    // Shell k itself is not added.
    let node = changed(base, |n| (n.taken[0], n.first[0].sent[0]) = (TAKEN_LIMIT - 6, TAKEN_LIMIT - 6));
    assert!(agrees(&node, 1, 0));
}

#[test]
fn clause_4_of_pass_1() {
    let mut node = late_state();
    assert!(agrees(&node, 1, 1));
    node.first[1].total_sent = 2;
    assert_fail(&node, 1, 1, &[4]);
    node.first[1].sent[1] = 0;
    assert_fail(&node, 1, 1, &[2, 4]);
    node.first[1].taken[1] = 0;
    node.first[1].total_taken = FIELD_LIMIT;
    assert_fail(&node, 1, 1, &[1, 2, 3, 4]);
}

#[test]
fn clauses_of_pass_2() {
    let base = late_state();
    assert_fail(&changed(base, |n| n.second[1].present = false), 2, 1, &[0]);
    assert_fail(&changed(base, |n| n.second[1].t = 5), 2, 1, &[5]);
    assert_fail(&changed(base, |n| n.second[1].total_sent = 2), 2, 1, &[6]);
    let zeros = changed(base, |n| n.second[1] = Second { present: true, t: 0, total_sent: 0 });
    assert_fail(&zeros, 2, 1, &[5, 6]);
    assert!(agrees(&changed(base, |n| n.second[0].total_sent = FIELD_LIMIT - 1), 2, 0));
    assert_fail(&changed(base, |n| n.second[0].total_sent = FIELD_LIMIT), 2, 0, &[3]);
    let full = changed(base, |n| n.second[1] = Second { present: true, t: 9, total_sent: FIELD_LIMIT });
    assert_fail(&full, 2, 1, &[3, 5, 6]);
}

/// Rule N17, by the answers of barrier calls at nodes that look.
#[test]
fn a_wait_names_the_lowest() {
    let named = |node: Node| match barrier(Node { flag: false, ..node }, &mut []).1 {
        Barrier::Waits { clause } => clause,
        other => panic!("{other:?}"),
    };
    let first = changed(looking(), |n| (n.sent[0], n.taken[0], n.sent[1]) = (1, 1, 1));
    assert_eq!(named(first), 1);
    let first = changed(first, |n| (n.first[0].taken[0], n.first[0].total_sent) = (1, FIELD_LIMIT));
    assert_eq!((failing(&first, 1, 0), named(first)), (vec![2, 3], 2));
    assert_eq!(named(changed(first, |n| n.first[0] = First::default())), 0);
    let last = changed(late_state(), |n| (n.pass, n.t, n.first[1].total_sent) = (1, 0, FIELD_LIMIT));
    assert_eq!((failing(&last, 1, 1), named(last)), (vec![3, 4], 3));
    let second = changed(late_state(), |n| (n.second[1].t, n.second[1].total_sent) = (0, 0));
    assert_eq!((failing(&second, 2, 1), named(second)), (vec![5, 6], 5));
    let second = changed(second, |n| n.second[1].total_sent = FIELD_LIMIT);
    assert_eq!((failing(&second, 2, 1), named(second)), (vec![3, 5, 6], 3));
}
