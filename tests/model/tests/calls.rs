//! The calls: what they do, the order of their refusals, and their limits.

use model::frame::{read, stated_length, write, Fields};
use model::node::{
    barrier, failing, frame_in, fresh, idle, send, take, Answer, Barrier, First, Node, Second, Work,
};
use model::{FIELD_LIMIT, LONGEST, NODES, SENT_LIMIT, SHELLS, TAKEN_LIMIT};

fn first(conditions: &[(bool, u8)]) -> Option<u8> {
    conditions.iter().find(|(met, _)| *met).map(|(_, number)| *number)
}

fn refusal(answer: Answer) -> Option<u8> {
    match answer {
        Answer::Refused(number) => Some(number),
        _ => None,
    }
}

#[test]
fn fresh_order_of_refusals() {
    for board in [0, 1, 2, 95, 96, 97, 128, 129, 256, 257, u32::MAX] {
        for number in [0, 1, 2, 94, 95, 96, 97, 255, 256, 257, u32::MAX] {
            let expected = first(&[(board == 0 || board > NODES, 1), (number >= board, 2)]);
            assert_eq!(fresh(board, number).err(), expected);
        }
    }
    let node = fresh(96, 95).unwrap();
    assert_eq!((node.phase, node.busy, node.pass, node.dim, node.flag, node.t), (0, true, 1, 0, true, 0));
    assert_eq!((node.sent, node.taken), ([0; SHELLS], [0; SHELLS]));
}

/// Send: 13, 2, 3, 4, 5 (rule R3).
#[test]
fn send_order_of_refusals() {
    for bad in [false, true] {
        for to in [1, 2, 6, 255, u32::MAX] {
            for resting in [false, true] {
                for full in [false, true] {
                    let mut node = Node { busy: !resting, t: u32::from(bad), ..fresh(6, 2).unwrap() };
                    node.sent[1] = if full { SENT_LIMIT } else { 7 };
                    let (after, answer) = send(node, to);
                    let expected = first(&[(bad, 13), (to >= 6, 2), (to == 2, 3), (resting, 4), (full, 5)]);
                    assert_eq!(refusal(answer), expected);
                    if expected.is_none() {
                        node.sent[1] += 1;
                        assert_eq!(answer, Answer::Done);
                    }
                    assert_eq!(after, node);
                }
            }
        }
    }
}

/// Take: 13, 2, 3, 7, 8, 6 (rule R3), of a job and of a note, at a busy node and at an idle one.
#[test]
fn take_order_of_refusals() {
    for (work, busy) in Work::BOTH.into_iter().flat_map(|work| [(work, false), (work, true)]) {
        for bad in [false, true] {
            for from in [1, 2, 6, 255, u32::MAX] {
                for difference in [0u8, 1, 2, 3, 128, 254, 255] {
                    for full in [false, true] {
                        take_case(work, busy, bad, from, difference, full);
                    }
                }
            }
        }
    }
}

fn take_case(work: Work, busy: bool, bad: bool, from: u32, difference: u8, full: bool) {
    let mut node = Node { busy, phase: 250, t: u32::from(bad), ..fresh(6, 2).unwrap() };
    node.taken[1] = if full { TAKEN_LIMIT } else { 7 };
    let (after, answer) = take(node, work, from, 250u8.wrapping_add(difference));
    let expected = first(&[
        (bad, 13),
        (from >= 6, 2),
        (from == 2, 3),
        (difference == 1, 7),
        (difference >= 2, 8),
        (full, 6),
    ]);
    assert_eq!(refusal(answer), expected);
    if expected.is_none() {
        node.taken[1] += 1;
        node.busy = busy || work == Work::Job;
        assert_eq!(answer, Answer::Done);
    }
    assert_eq!(after, node);
}

/// Idle: 13 (rule R3); an idle node may say it again (rule N7).
#[test]
fn idle_calls() {
    let node = fresh(3, 1).unwrap();
    let (resting, answer) = idle(node);
    assert_eq!((resting, answer), (Node { busy: false, ..node }, Answer::Done));
    assert_eq!(idle(resting), (resting, Answer::Done));
    let bad = Node { t: 1, ..node };
    assert_eq!(idle(bad), (bad, Answer::Refused(13)));
}

/// Barrier: 13, 12, 14 (rule R3).
#[test]
fn barrier_order_of_refusals() {
    for bad in [false, true] {
        for busy in [false, true] {
            for room in [0, 1, 35, 36, 37, LONGEST] {
                let node = Node { busy, t: u32::from(bad), ..fresh(6, 0).unwrap() };
                let mut buffer = vec![0x3c; room];
                let (after, answer) = barrier(node, &mut buffer);
                let expected = first(&[(bad, 13), (busy, 12), (room < 36, 14)]);
                match expected {
                    Some(number) => {
                        assert_eq!((after, answer), (node, Barrier::Refused(number)));
                        assert_eq!(buffer, vec![0x3c; room]);
                    }
                    None => {
                        assert_eq!(answer, Barrier::Sent { receivers: vec![1], length: 36 });
                        assert_eq!(after, Node { flag: false, ..node });
                        assert!(buffer[36..].iter().all(|&byte| byte == 0x3c));
                    }
                }
            }
        }
    }
}

/// Frame in: 13, 9, 10, 9, 10, 2, 3, 11, then the phase (rule R3, rule R7).
#[test]
fn frame_in_order_of_refusals() {
    for bad in [false, true] {
        for (pass, dim) in [(0, 1), (1, 1), (2, 1), (3, 1), (1, 3), (2, 255), (1, 0), (2, 0)] {
            for by in [-40, -1, 0, 1] {
                for number in [0, FIELD_LIMIT, FIELD_LIMIT + 1] {
                    for sender in [0u8, 1, 2, 5, 6, 255] {
                        for difference in [0u8, 1, 2, 254, 255] {
                            frame_in_case(bad, pass, dim, by, number, sender, difference);
                        }
                    }
                }
            }
        }
    }
}

/// Node 2 of 6 awaits nobody in 0, node 0 in 1 and node 5 in 2.
fn frame_in_case(bad: bool, pass: u8, dim: u8, by: i32, number: u32, sender: u8, difference: u8) {
    let mut node = Node { busy: false, phase: 255, ..fresh(6, 2).unwrap() };
    node.t = u32::from(bad);
    let odd = pass == 0 || pass > 2 || dim >= 3;
    let stated = if odd { 20 } else { stated_length(3, pass.into(), dim.into()) };
    let length = (stated as i32 + by).max(3) as usize;
    let mut bytes = vec![pass, 255u8.wrapping_add(difference), dim, sender];
    while bytes.len() < length {
        bytes.extend(number.to_le_bytes());
    }
    bytes.truncate(length);
    let expected = first(&[
        (bad, 13),
        (length < 4, 9),
        (odd, 10),
        (length != stated, 9),
        (number > FIELD_LIMIT, 10),
        (sender >= 6, 2),
        (sender == 2, 3),
        (dim == 0 || (dim == 1 && sender != 0), 11),
        (difference == 1, 7),
        ((2..=254).contains(&difference), 8),
    ]);
    let (after, answer) = frame_in(node, &bytes);
    assert_eq!(refusal(answer), expected);
    if expected.is_some() || difference == 255 {
        assert_eq!(after, node);
        assert!(expected.is_some() || answer == Answer::Dropped);
    } else {
        assert_eq!(answer, Answer::Done);
        assert_ne!(after, node);
    }
}

/// The last send that is done, and the first that is refused with 5 (rule R1).
#[test]
fn sends_to_the_limit() {
    let mut node = fresh(5, 0).unwrap();
    for count in 0..SENT_LIMIT {
        let (after, answer) = send(node, 1 + count % 4);
        assert_eq!(answer, Answer::Done);
        node = after;
    }
    for to in 1..5 {
        assert_eq!(send(node, to), (node, Answer::Refused(5)));
    }
    let mut over = node;
    over.sent[0] += 1;
    assert_eq!(send(over, 1), (over, Answer::Refused(13)));
}

/// Jobs and notes come to one limit together.
#[test]
fn takes_to_the_limit() {
    let mut node = fresh(5, 0).unwrap();
    node.taken[2] = TAKEN_LIMIT - 2;
    for work in [Work::Note, Work::Job] {
        let (after, answer) = take(node, work, 1, 0);
        assert_eq!(answer, Answer::Done);
        node = after;
    }
    for work in Work::BOTH {
        assert_eq!(take(node, work, 1, 0), (node, Answer::Refused(6)));
        assert_eq!(take(node, work, 4, 0), (node, Answer::Refused(6)));
        let mut over = node;
        over.taken[0] += 1;
        assert_eq!(take(over, work, 1, 0), (over, Answer::Refused(13)));
    }
}

/// A take puts the node to (1, 0, 1) without T; stored frames stay, and only a job makes it busy (rule N6).
#[test]
fn a_take_goes_back_to_the_start() {
    let mut node = Node { busy: false, pass: 2, dim: 0, flag: false, t: 3, ..fresh(2, 1).unwrap() };
    node.sent[0] = 3;
    node.first[0] = First { present: true, total_taken: 3, ..First::default() };
    node.first[0].taken[0] = 3;
    node.second[0] = Second { present: true, t: 3, total_sent: 3 };
    for (work, busy) in [(Work::Job, true), (Work::Note, false)] {
        let (after, answer) = take(node, work, 0, 0);
        assert_eq!(answer, Answer::Done);
        let mut expected = Node { busy, pass: 1, dim: 0, flag: true, t: 0, ..node };
        expected.taken[0] = 1;
        assert_eq!(after, expected);
    }
}

/// From every step, with flag 0 and 1, a note takes an idle node back to the start, and it is idle still.
#[test]
fn a_note_wakes_nobody() {
    for (pass, dim) in [(1, 0), (1, 1), (2, 0), (2, 1)] {
        for flag in [false, true] {
            let node = settled(pass, dim, flag);
            for (from, shell) in [(1, 0), (2, 1), (3, 1)] {
                let (after, answer) = take(node, Work::Note, from, 0);
                let mut expected = settled(1, 0, true);
                expected.taken[shell] = 1;
                assert_eq!((after, answer), (expected, Answer::Done));
                assert_eq!(send(after, from), (after, Answer::Refused(4)));
                // Nothing has to be said before it signs in.
                let signed = barrier(after, &mut [0; LONGEST]);
                let frame = Barrier::Sent { receivers: vec![1], length: 28 };
                assert_eq!(signed, (Node { flag: false, ..after }, frame));
            }
        }
    }
}

/// At a busy node a note counts, and a job after it or before it makes no difference.
#[test]
fn a_note_at_a_busy_node() {
    let node = fresh(4, 0).unwrap();
    let (noted, answer) = take(node, Work::Note, 3, 0);
    assert_eq!(answer, Answer::Done);
    assert_eq!((noted.busy, noted.taken[1], noted.pass, noted.dim, noted.flag), (true, 1, 1, 0, true));
    assert_eq!(noted, take(node, Work::Job, 3, 0).0);
    let both = take(noted, Work::Job, 1, 0).0;
    assert_eq!(both, take(take(node, Work::Job, 1, 0).0, Work::Note, 3, 0).0);
    assert_eq!((both.busy, both.taken[0], both.taken[1]), (true, 1, 1));
}

fn zero_frame(board: u32, pass: u32, dim: u32, sender: u32, phase: u8) -> Vec<u8> {
    let fields = Fields { pass, phase, dim, sender, ..Fields::default() };
    let mut buffer = [0; LONGEST];
    let length = write(board, &fields, &mut buffer).unwrap();
    buffer[..length].to_vec()
}

/// Node 0 of 4 with zero frames in all places, at a position.
fn settled(pass: u8, dim: u8, flag: bool) -> Node {
    let mut node = Node { busy: false, pass, dim, flag, ..fresh(4, 0).unwrap() };
    for k in 0..2 {
        node.first[k].present = true;
        node.second[k].present = true;
    }
    node
}

/// A frame of an earlier step takes the position back to it, with flag 0 (rule N8).
#[test]
fn frames_of_earlier_steps_roll_back() {
    let steps = [(1, 0), (1, 1), (2, 0), (2, 1)];
    for (at, &(pass, dim)) in steps.iter().enumerate() {
        for (of, &(frame_pass, frame_dim)) in steps.iter().enumerate() {
            for flag in [false, true] {
                let node = settled(pass, dim, flag);
                let sender = if frame_dim == 0 { 1 } else { 2 };
                let bytes = zero_frame(4, frame_pass.into(), frame_dim.into(), sender, 0);
                let (after, answer) = frame_in(node, &bytes);
                assert_eq!(answer, Answer::Done);
                let earlier = of < at;
                let expected = if earlier { (frame_pass, frame_dim, false) } else { (pass, dim, flag) };
                assert_eq!((after.pass, after.dim, after.flag), expected);
            }
        }
    }
}

#[test]
fn a_pass_1_frame_sets_t_to_0() {
    let mut node = Node { busy: false, pass: 2, t: 1, ..fresh(2, 0).unwrap() };
    node.sent[0] = 1;
    node.first[0] = First { present: true, total_taken: 1, ..First::default() };
    node.first[0].taken[0] = 1;
    let (same, answer) = frame_in(node, &zero_frame(2, 2, 0, 1, 0));
    assert_eq!((answer, same.t, same.pass, same.flag), (Answer::Done, 1, 2, true));
    let (back, answer) = frame_in(node, &zero_frame(2, 1, 0, 1, 0));
    assert_eq!((answer, back.t, back.pass, back.flag), (Answer::Done, 0, 1, false));
    assert_eq!(failing(&back, 1, 0), [1, 4]);
    assert_eq!(barrier(back, &mut []).1, Barrier::Waits { clause: 1 });
}

/// A late frame is not taken for one of now (rule R7).
#[test]
fn a_late_frame_is_dropped() {
    let node = Node { phase: 0, ..fresh(2, 0).unwrap() };
    assert_eq!(frame_in(node, &zero_frame(2, 1, 0, 1, 255)), (node, Answer::Dropped));
    assert_eq!(frame_in(node, &zero_frame(2, 1, 0, 1, 1)), (node, Answer::Refused(7)));
    let node = Node { phase: 255, ..node };
    assert_eq!(frame_in(node, &zero_frame(2, 1, 0, 1, 0)), (node, Answer::Refused(7)));
    let node = Node { phase: 3, ..node };
    assert_eq!(frame_in(node, &zero_frame(2, 1, 0, 1, 5)), (node, Answer::Refused(8)));
}

/// All steps of a node of a settled board: sent, then moved, twice per pass, then left.
#[test]
fn the_steps_of_a_settled_node() {
    let mut node = settled(1, 0, true);
    let mut steps = vec![];
    for _ in 0..8 {
        let (after, answer) = barrier(node, &mut [0; LONGEST]);
        steps.push((answer.number(), after.pass, after.dim, after.flag));
        node = after;
    }
    let expected = [
        (20, 1, 0, false),
        (22, 1, 1, true),
        (20, 1, 1, false),
        (22, 2, 0, true),
        (20, 2, 0, false),
        (22, 2, 1, true),
        (20, 2, 1, false),
        (23, 1, 0, true),
    ];
    assert_eq!(steps, expected);
    assert_eq!(node, Node { phase: 1, ..fresh(4, 0).unwrap() });
}

/// The hermit gets a frame and sends none (rule T4): on a board of 3, node 1 is the hermit of node 2 in
/// dimension 1.
#[test]
fn hermit_messenger_and_alone() {
    let alone = Node { busy: false, ..fresh(3, 2).unwrap() };
    let (messenger, answer) = barrier(alone, &mut []);
    assert_eq!((messenger.dim, messenger.flag, answer), (1, true, Barrier::Moved));
    let mut buffer = [0; LONGEST];
    let (messenger, answer) = barrier(messenger, &mut buffer);
    assert_eq!(answer, Barrier::Sent { receivers: vec![0, 1], length: 20 });
    assert_eq!(read(3, &buffer[..20]).unwrap().sender, 2);
    assert_eq!(frame_in(messenger, &zero_frame(3, 1, 1, 1, 0)).1, Answer::Refused(11));

    let mut hermit = Node { busy: false, dim: 1, flag: true, ..fresh(3, 1).unwrap() };
    hermit.first[0].present = true;
    let (waiting, answer) = barrier(hermit, &mut []);
    assert_eq!((failing(&hermit, 1, 1), answer), (vec![0], Barrier::Waits { clause: 0 }));
    assert_eq!(waiting, Node { flag: false, ..hermit });
    let (stored, answer) = frame_in(waiting, &buffer[..20]);
    assert_eq!(answer, Answer::Done);
    let (moved, answer) = barrier(stored, &mut []);
    assert_eq!((moved.pass, moved.dim, moved.flag, answer), (2, 0, true, Barrier::Moved));
}

/// The written frame holds the own sums of the position.
#[test]
fn a_written_frame_holds_the_own_sums() {
    let mut node = Node { busy: false, phase: 9, dim: 1, ..fresh(4, 3).unwrap() };
    (node.sent[0], node.sent[1], node.taken[0], node.taken[1]) = (1, 2, 3, 4);
    node.first[0] = First { present: true, total_sent: 10, total_taken: 20, ..First::default() };
    (node.first[0].sent[0], node.first[0].taken[0]) = (3, 1);
    (node.first[0].sent[1], node.first[0].taken[1]) = (5, 6);
    let mut buffer = [0; LONGEST];
    let (after, answer) = barrier(node, &mut buffer);
    assert_eq!(
        (after, answer),
        (Node { flag: false, ..node }, Barrier::Sent { receivers: vec![1], length: 20 })
    );
    let mut expected = Fields { pass: 1, phase: 9, dim: 1, sender: 3, ..Fields::default() };
    (expected.sent[1], expected.taken[1]) = (7, 10);
    (expected.total_sent, expected.total_taken) = (13, 27);
    assert_eq!(read(4, &buffer[..20]), Ok(expected));
}
