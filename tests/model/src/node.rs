//! The node (rule N1 to rule N17): its state, the state test, the clauses and the calls.

use crate::frame::{self, Fields, Timing};
use crate::{no, tree, FIELD_LIMIT, NODES, SENT_LIMIT, SHELLS, TAKEN_LIMIT};

/// A place for the latest stored pass 1 frame of a dimension. Shells stand by their own number.
#[derive(Clone, Copy, Debug, Default, PartialEq, Eq, Hash)]
pub struct First {
    pub present: bool,
    pub sent: [u32; SHELLS],
    pub taken: [u32; SHELLS],
    pub total_sent: u32,
    pub total_taken: u32,
}

/// A place for the latest stored pass 2 frame of a dimension.
#[derive(Clone, Copy, Debug, Default, PartialEq, Eq, Hash)]
pub struct Second {
    pub present: bool,
    pub t: u32,
    pub total_sent: u32,
}

/// A node's state with room for the shells and dimensions of the largest board (rule N1). P is `board`.
#[derive(Clone, Copy, Debug, PartialEq, Eq, Hash)]
pub struct Node {
    pub board: u32,
    pub number: u32,
    pub phase: u8,
    pub busy: bool,
    pub sent: [u32; SHELLS],
    pub taken: [u32; SHELLS],
    pub pass: u8,
    pub dim: u8,
    pub flag: bool,
    pub t: u32,
    pub first: [First; SHELLS],
    pub second: [Second; SHELLS],
}

/// What a work message is. Both kinds are counted; only a job gives its taker something to do.
#[derive(Clone, Copy, Debug, PartialEq, Eq, Hash)]
pub enum Work {
    Job,
    Note,
}

impl Work {
    pub const BOTH: [Work; 2] = [Work::Job, Work::Note];
}

/// The answer of send, take, idle and frame in.
#[derive(Clone, Copy, Debug, PartialEq, Eq)]
pub enum Answer {
    Done,
    Dropped,
    Refused(u8),
}

/// The answer of a barrier call. A wait names a clause (rule N17).
#[derive(Clone, Debug, PartialEq, Eq)]
pub enum Barrier {
    Sent { receivers: Vec<u32>, length: usize },
    Waits { clause: u8 },
    Moved,
    Left,
    Refused(u8),
}

/// The own sums of a pass 1 step; shells below k are 0.
#[derive(Clone, Copy, Debug, Default, PartialEq, Eq)]
pub struct Sums {
    pub sent: [u64; SHELLS],
    pub taken: [u64; SHELLS],
    pub total_sent: u64,
    pub total_taken: u64,
}

impl Answer {
    /// The number of the answer (rule N18).
    pub fn number(&self) -> u8 {
        match self {
            Answer::Done => 0,
            Answer::Dropped => 24,
            Answer::Refused(number) => *number,
        }
    }
}

impl Barrier {
    /// The number of the answer (rule N18).
    pub fn number(&self) -> u8 {
        match self {
            Barrier::Sent { .. } => 20,
            Barrier::Waits { .. } => 21,
            Barrier::Moved => 22,
            Barrier::Left => 23,
            Barrier::Refused(number) => *number,
        }
    }
}

fn sum(numbers: &[u32]) -> u64 {
    numbers.iter().map(|&n| u64::from(n)).sum()
}

impl Node {
    /// Total sent: the sent tallies of all shells added up.
    pub fn total_sent(&self) -> u64 {
        sum(&self.sent)
    }

    /// Total taken: the taken tallies of all shells added up.
    pub fn total_taken(&self) -> u64 {
        sum(&self.taken)
    }

    /// The dimension p. Wants P from 1 to `NODES`.
    fn p(&self) -> u32 {
        tree::dimension(self.board).expect("a board")
    }

    /// The node awaited in dimension k; none where k is not below p. Wants P and number in bounds.
    fn awaited(&self, k: u32) -> Option<u32> {
        tree::awaited(self.board, self.number, k).unwrap_or(None)
    }

    fn set_position(&mut self, pass: u8, dim: u32, flag: bool) {
        self.pass = pass;
        self.dim = dim as u8;
        self.flag = flag;
    }
}

// ---------------------------------------------------------------------------------------------
// The state test

/// Rule R5: unless all of these hold, a call answers 13.
pub fn state_stands(node: &Node) -> bool {
    name_stands(node)
        && position_stands(node)
        && tallies_stand(node)
        && stored_frames_stand(node)
        && total_stands(node)
        && busy_stands(node)
        && earlier_steps_agree(node)
}

/// A board of 1 to `NODES` nodes, and one of its numbers.
fn name_stands(node: &Node) -> bool {
    (1..=NODES).contains(&node.board) && node.number < node.board
}

/// A pass and a dimension of the board; where p is 0, pass 1 and dimension 0.
fn position_stands(node: &Node) -> bool {
    if node.p() == 0 {
        return node.pass == 1 && node.dim == 0;
    }
    (node.pass == 1 || node.pass == 2) && u32::from(node.dim) < node.p()
}

/// Totals within the limits, and 0 for shells that the board lacks.
fn tallies_stand(node: &Node) -> bool {
    let p = node.p() as usize;
    node.total_sent() <= u64::from(SENT_LIMIT)
        && node.total_taken() <= u64::from(TAKEN_LIMIT)
        && node.sent[p..].iter().all(|&n| n == 0)
        && node.taken[p..].iter().all(|&n| n == 0)
}

fn stored_frames_stand(node: &Node) -> bool {
    (0..SHELLS).all(|k| first_stands(node, k) && second_stands(node, k))
}

/// A frame is stored only where one is awaited, its numbers are within the limit, and numbers that the
/// place lacks are 0.
fn first_stands(node: &Node, k: usize) -> bool {
    let frame = &node.first[k];
    if !frame.present {
        return *frame == First::default();
    }
    let shells = k..node.p() as usize;
    let shell_stands = |shell: usize| {
        let limit = if shells.contains(&shell) { FIELD_LIMIT } else { 0 };
        frame.sent[shell] <= limit && frame.taken[shell] <= limit
    };
    node.awaited(k as u32).is_some()
        && (0..SHELLS).all(shell_stands)
        && frame.total_sent <= FIELD_LIMIT
        && frame.total_taken <= FIELD_LIMIT
}

/// The same for a pass 2 frame.
fn second_stands(node: &Node, k: usize) -> bool {
    let frame = &node.second[k];
    if !frame.present {
        return *frame == Second::default();
    }
    node.awaited(k as u32).is_some() && frame.t <= FIELD_LIMIT && frame.total_sent <= FIELD_LIMIT
}

/// T is 0 in pass 1, and in pass 2 what the move to it set.
fn total_stands(node: &Node) -> bool {
    let given = if node.pass == 1 { 0 } else { agreed_total(node) };
    node.t <= FIELD_LIMIT && u64::from(node.t) == given
}

/// The total sent of clause 4, with the frame's added.
fn agreed_total(node: &Node) -> u64 {
    let last = node.p() - 1;
    own_sums(node, last).total_sent + u64::from(node.first[last as usize].total_sent)
}

/// A busy node is at (1, 0, 1).
fn busy_stands(node: &Node) -> bool {
    !node.busy || (node.pass, node.dim, node.flag) == (1, 0, true)
}

/// Every step before the position agrees. Passes come first, then dimensions.
fn earlier_steps_agree(node: &Node) -> bool {
    for pass in [1, 2] {
        for k in 0..node.p() {
            if (pass, k) < (node.pass, u32::from(node.dim)) && !agrees(node, pass, k) {
                return false;
            }
        }
    }
    true
}

// ---------------------------------------------------------------------------------------------
// Own sums (rule N14) and clauses (rule N15). These want a state whose P and number are in bounds, and k
// below p.

/// Own sums of pass 1: the node's numbers, and those of its stored pass 1 frames of dimensions below k.
pub fn own_sums(node: &Node, k: u32) -> Sums {
    let mut own = Sums { total_sent: node.total_sent(), total_taken: node.total_taken(), ..Sums::default() };
    let lower: Vec<&First> = node.first[..k as usize].iter().filter(|frame| frame.present).collect();
    for shell in k as usize..node.p() as usize {
        own.sent[shell] = u64::from(node.sent[shell]);
        own.taken[shell] = u64::from(node.taken[shell]);
        for frame in &lower {
            own.sent[shell] += u64::from(frame.sent[shell]);
            own.taken[shell] += u64::from(frame.taken[shell]);
        }
    }
    for frame in &lower {
        own.total_sent += u64::from(frame.total_sent);
        own.total_taken += u64::from(frame.total_taken);
    }
    own
}

/// The own sum of pass 2: the node's total sent, and those of its stored pass 2 frames below k.
pub fn own_sum_pass_2(node: &Node, k: u32) -> u64 {
    let mut own = node.total_sent();
    for frame in node.second[..k as usize].iter().filter(|frame| frame.present) {
        own += u64::from(frame.total_sent);
    }
    own
}

/// The clauses of a step that fail; a step at which the node is alone has none.
pub fn failing(node: &Node, pass: u8, k: u32) -> Vec<u8> {
    if node.awaited(k).is_none() {
        return vec![];
    }
    if pass == 1 {
        failing_pass_1(node, k)
    } else {
        failing_pass_2(node, k)
    }
}

/// The lowest-numbered clause of a step that fails (rule N17); none where the step agrees.
pub fn lowest_failing(node: &Node, pass: u8, k: u32) -> Option<u8> {
    failing(node, pass, k).into_iter().min()
}

/// Rule N16.
pub fn agrees(node: &Node, pass: u8, k: u32) -> bool {
    failing(node, pass, k).is_empty()
}

/// The numbers of the clauses that do not hold.
fn those_that_fail(clauses: &[(u8, bool)]) -> Vec<u8> {
    clauses.iter().filter(|(_, holds)| !holds).map(|(number, _)| *number).collect()
}

/// Clauses 0 to 4.
fn failing_pass_1(node: &Node, k: u32) -> Vec<u8> {
    let frame = &node.first[k as usize];
    if !frame.present {
        // There is nothing to compare with, so no other is tried (rule N17).
        return vec![0];
    }
    let (own, p, shell) = (own_sums(node, k), node.p(), k as usize);
    let total_sent = own.total_sent + u64::from(frame.total_sent);
    let total_taken = own.total_taken + u64::from(frame.total_taken);
    those_that_fail(&[
        // What this side sent the other has taken.
        (1, own.sent[shell] == u64::from(frame.taken[shell])),
        // And the other way.
        (2, own.taken[shell] == u64::from(frame.sent[shell])),
        (3, sums_fit(&own, frame, k, p)),
        // On the whole board as much is taken as is sent.
        (4, k + 1 != p || total_sent == total_taken),
    ])
}

/// Clause 3 of pass 1: shells above k and both totals, with the frame's added, are within the limit.
fn sums_fit(own: &Sums, frame: &First, k: u32, p: u32) -> bool {
    let mut sums =
        vec![own.total_sent + u64::from(frame.total_sent), own.total_taken + u64::from(frame.total_taken)];
    for shell in k as usize + 1..p as usize {
        sums.push(own.sent[shell] + u64::from(frame.sent[shell]));
        sums.push(own.taken[shell] + u64::from(frame.taken[shell]));
    }
    sums.iter().all(|&sum| sum <= u64::from(FIELD_LIMIT))
}

/// Clauses 0, 3, 5 and 6.
fn failing_pass_2(node: &Node, k: u32) -> Vec<u8> {
    let frame = &node.second[k as usize];
    if !frame.present {
        return vec![0];
    }
    let total_sent = own_sum_pass_2(node, k) + u64::from(frame.total_sent);
    those_that_fail(&[
        // The sum is within the limit.
        (3, total_sent <= u64::from(FIELD_LIMIT)),
        // The other side has agreed on the same total.
        (5, node.t == frame.t),
        // T is what the whole board has sent.
        (6, k + 1 != node.p() || total_sent == u64::from(node.t)),
    ])
}

// ---------------------------------------------------------------------------------------------
// The calls

/// A fresh node (rule N4).
fn fresh_state(board: u32, number: u32) -> Node {
    Node {
        board,
        number,
        phase: 0,
        busy: true,
        sent: [0; SHELLS],
        taken: [0; SHELLS],
        pass: 1,
        dim: 0,
        flag: true,
        t: 0,
        first: [First::default(); SHELLS],
        second: [Second::default(); SHELLS],
    }
}

/// Fresh (rule N4): 1, 2.
pub fn fresh(board: u32, number: u32) -> Result<Node, u8> {
    tree::dimension(board)?;
    if number >= board {
        return Err(no::STRANGER);
    }
    Ok(fresh_state(board, number))
}

/// Send of a job or a note (rule N5): 13, 2, 3, 4, 5.
pub fn send(node: Node, to: u32) -> (Node, Answer) {
    match send_refusal(&node, to) {
        Some(number) => (node, Answer::Refused(number)),
        None => (with_sent(node, to), Answer::Done),
    }
}

fn send_refusal(node: &Node, to: u32) -> Option<u8> {
    if !state_stands(node) {
        return Some(no::STATE);
    }
    if to >= node.board {
        return Some(no::STRANGER);
    }
    if to == node.number {
        return Some(no::SELF);
    }
    if !node.busy {
        return Some(no::RESTING);
    }
    if node.total_sent() == u64::from(SENT_LIMIT) {
        return Some(no::SENT_OUT);
    }
    None
}

/// The shell of another node of the board.
fn shell_of(node: &Node, other: u32) -> usize {
    tree::distance(node.board, node.number, other).expect("two nodes of the board") as usize
}

/// One message more to the shell that the receiver is in.
fn with_sent(node: Node, to: u32) -> Node {
    let mut after = node;
    after.sent[shell_of(&node, to)] += 1;
    after
}

/// Take (rule N6): 13, 2, 3, 7, 8, 6, whatever the message is. `phase` is its phase byte.
pub fn take(node: Node, work: Work, from: u32, phase: u8) -> (Node, Answer) {
    match take_refusal(&node, from, phase) {
        Some(number) => (node, Answer::Refused(number)),
        None => (with_taken(node, work, from), Answer::Done),
    }
}

fn take_refusal(node: &Node, from: u32, phase: u8) -> Option<u8> {
    if !state_stands(node) {
        return Some(no::STATE);
    }
    if from >= node.board {
        return Some(no::STRANGER);
    }
    if from == node.number {
        return Some(no::SELF);
    }
    match frame::timing(phase, node.phase) {
        Timing::Now => {}
        Timing::Early => return Some(no::EARLY),
        // Late work is foreign too (rule R1).
        Timing::Late | Timing::Foreign => return Some(no::FOREIGN),
    }
    if node.total_taken() == u64::from(TAKEN_LIMIT) {
        return Some(no::TAKEN_FULL);
    }
    None
}

/// One message more from the sender's shell; the node is at (1, 0, 1), without T. A job makes it busy; a
/// note leaves it busy or idle as it was.
fn with_taken(node: Node, work: Work, from: u32) -> Node {
    let mut after = node;
    after.taken[shell_of(&node, from)] += 1;
    if work == Work::Job {
        after.busy = true;
    }
    after.set_position(1, 0, true);
    after.t = 0;
    after
}

/// Idle (rule N7): 13. An idle node may say it again.
pub fn idle(node: Node) -> (Node, Answer) {
    if !state_stands(&node) {
        return (node, Answer::Refused(no::STATE));
    }
    (Node { busy: false, ..node }, Answer::Done)
}

/// Frame in (rule N8): 13, 9, 10, 9, 10, 2, 3, 11, and the phase last of all (rule R7).
pub fn frame_in(node: Node, bytes: &[u8]) -> (Node, Answer) {
    let fields = match admitted_frame(&node, bytes) {
        Ok(fields) => fields,
        Err(number) => return (node, Answer::Refused(number)),
    };
    match frame::timing(fields.phase, node.phase) {
        Timing::Now => (with_frame(node, &fields), Answer::Done),
        Timing::Early => (node, Answer::Refused(no::EARLY)),
        // Accepted, without effect.
        Timing::Late => (node, Answer::Dropped),
        Timing::Foreign => (node, Answer::Refused(no::FOREIGN)),
    }
}

/// All of frame in before the phase.
fn admitted_frame(node: &Node, bytes: &[u8]) -> Result<Fields, u8> {
    if !state_stands(node) {
        return Err(no::STATE);
    }
    let fields = frame::read(node.board, bytes)?;
    if fields.sender == node.number {
        return Err(no::SELF);
    }
    if node.awaited(fields.dim) != Some(fields.sender) {
        return Err(no::PARTNER);
    }
    Ok(fields)
}

/// The frame is stored; one of an earlier step takes the position back to it, with flag 0, and T is 0 if
/// that is in pass 1.
fn with_frame(node: Node, fields: &Fields) -> Node {
    let mut after = node;
    let (pass, k) = (fields.pass as u8, fields.dim);
    if pass == 1 {
        after.first[k as usize] = stored_first(fields);
    } else {
        after.second[k as usize] = Second { present: true, t: fields.t, total_sent: fields.total_sent };
    }
    if (pass, k) < (node.pass, u32::from(node.dim)) {
        after.set_position(pass, k, false);
        if pass == 1 {
            after.t = 0;
        }
    }
    after
}

fn stored_first(fields: &Fields) -> First {
    First {
        present: true,
        sent: fields.sent,
        taken: fields.taken,
        total_sent: fields.total_sent,
        total_taken: fields.total_taken,
    }
}

/// Barrier call (rule N9): 13, 12, 14.
pub fn barrier(node: Node, buffer: &mut [u8]) -> (Node, Barrier) {
    if !state_stands(&node) {
        return (node, Barrier::Refused(no::STATE));
    }
    if node.busy {
        return (node, Barrier::Refused(no::WORKING));
    }
    if node.board == 1 {
        // There is nobody to ask.
        return (left(node), Barrier::Left);
    }
    let receivers = tree::receivers(node.board, node.number, u32::from(node.dim)).expect("k below p");
    if node.flag && !receivers.is_empty() {
        return sign_in(node, receivers, buffer);
    }
    // Also with flag 1, where there is nobody to send to.
    look(node)
}

/// Rule N10: the frame is written, and the flag is 0 from then on.
fn sign_in(node: Node, receivers: Vec<u32>, buffer: &mut [u8]) -> (Node, Barrier) {
    match frame::write(node.board, &due_frame(&node), buffer) {
        Ok(length) => (Node { flag: false, ..node }, Barrier::Sent { receivers, length }),
        Err(number) => {
            assert_eq!(number, no::BUFFER, "a frame of a good state is in bounds");
            (node, Barrier::Refused(number))
        }
    }
}

/// The frame of the position: the own sums in pass 1, T and the own sum in pass 2.
pub fn due_frame(node: &Node) -> Fields {
    let k = u32::from(node.dim);
    let head = Fields {
        pass: u32::from(node.pass),
        phase: node.phase,
        dim: k,
        sender: node.number,
        ..Fields::default()
    };
    if node.pass == 2 {
        return Fields { t: node.t, total_sent: narrow(own_sum_pass_2(node, k)), ..head };
    }
    let own = own_sums(node, k);
    Fields {
        sent: own.sent.map(narrow),
        taken: own.taken.map(narrow),
        total_sent: narrow(own.total_sent),
        total_taken: narrow(own.total_taken),
        ..head
    }
}

fn narrow(sum: u64) -> u32 {
    u32::try_from(sum).expect("clause 3 keeps the own sums of later steps in bounds")
}

/// Rule N11 where the step agrees, else rule N12.
fn look(node: Node) -> (Node, Barrier) {
    let (pass, k) = (node.pass, u32::from(node.dim));
    if let Some(clause) = lowest_failing(&node, pass, k) {
        return (Node { flag: false, ..node }, Barrier::Waits { clause });
    }
    let last = k + 1 == node.p();
    if last && pass == 2 {
        // Both passes are through.
        return (left(node), Barrier::Left);
    }
    let mut after = node;
    if last {
        // To pass 2, with the total that was found.
        after.set_position(2, 0, true);
        after.t = narrow(agreed_total(&node));
    } else {
        // To the next dimension, whose frame is yet to be sent.
        after.set_position(pass, k + 1, true);
    }
    (after, Barrier::Moved)
}

/// Rule N13: the next phase, and the rest fresh.
fn left(node: Node) -> Node {
    let phase = if node.phase == 255 { 0 } else { node.phase + 1 };
    Node { phase, ..fresh_state(node.board, node.number) }
}
