//! A plain model of the optimistic cycle barrier: the rules of docs/RULES.md, written apart from the
//! definitions and the code, so that a test can hold the part to it (rule P10). It uses lists and sums
//! and takes no short cuts. Comments name the rule that is meant.
//!
//! What is easily read otherwise:
//!
//! - Tallies (rule R5): the total sent is at most 65,535 and the total taken at most 6,225,825. A
//!   tally of a shell without nodes (an alone step) is bounded like any other.
//! - T (rule R5): 0 in pass 1; in pass 2 the number that clause 4 compares, which is the own total sent
//!   and those of all stored pass 1 frames.
//! - Numbers that must be 0 (rule R5): shells from p up, shells below k in a stored frame, and all
//!   numbers of a place in which no frame is stored.
//! - Steps that await no frame (rule R5): alone steps and all dimensions from p up.
//! - The flag is free in an idle state. Only a busy node must be at (1, 0, 1).
//! - An idle node of a board of one leaves whatever its flag is (rule N13).
//! - Every lookup in a dimension, the run too, wants k below p (rule R3).
//! - The writer refuses with 10 a number that is not 0 where the pass, k or p lacks it (rule F4).
//! - Send is the same for a job and a note, 4 for an idle node too (rule N5); the takes differ in whether
//!   the node is busy then, and in nothing else (rule N6).
//! - An idle node that takes a note has flag 1 again, so its next barrier call sends the frame of (1, 0) if
//!   it goes to anybody. No idle call has to come before.
//! - A wait names 0 where no frame is stored, whatever the zeros of that place would say of the other
//!   clauses (rule N17).
//! - A late frame is dropped only when no number from 9 to 11 was given before (rule R7).
//! - Any refusal of a delivered item but 7 takes it off its link (rule H4).
//! - A busy node keeps a board going (rule P5) by being busy, not by what a barrier call would do.
//! - A loss of an item that is not there is no event, and nothing happens (rule H2).
//! - Rehearsal: a note is sent and delivered with the answers of a job, and only what is printed for busy
//!   can differ then; the header line is always printed first; lines are played one by one and what was
//!   printed stands; a last line without newline is 17 at that line; a blank line is 17; `nodes` with
//!   0 or 17 to 999 is 1; `0` alone has no leading zero; 15 comes after every other refusal; `d a a`
//!   is 16, as nothing is ever on that link; a delivery refused with another number than 7 takes the
//!   item off.
//! - Removal (rule S6): the places in use above the gap move down whole, and the place that was the
//!   last in use keeps what it had. Places lent beyond 512 are not touched. The number of places is
//!   the smallest of 512, the headers lent and the whole 68-byte parts of the buffer lent.
//! - Recordings (rule K2): there is at least one section, and any of them may be empty; the offset of an empty
//!   one is where its body would begin. Lengths are 2 more than a multiple of 4, so that the longest has
//!   59,998 bytes. The test never looks at an answer.
//! - Replay (rule K7): the headers are its own, 512 of them, so that only the bytes lent tell how many places
//!   there are. An event answered 15 where 15 is recorded changes nothing, and the replay goes on.

pub mod board;
pub mod frame;
pub mod node;
pub mod random;
pub mod recording;
pub mod rehearsal;
pub mod tree;

/// The numbers of refusals by their words (rule R1).
pub mod no {
    pub const BOARD: u8 = 1;
    pub const STRANGER: u8 = 2;
    pub const SELF: u8 = 3;
    pub const RESTING: u8 = 4;
    pub const SENT_OUT: u8 = 5;
    pub const TAKEN_FULL: u8 = 6;
    pub const EARLY: u8 = 7;
    pub const FOREIGN: u8 = 8;
    pub const LENGTH: u8 = 9;
    pub const FIELD: u8 = 10;
    pub const PARTNER: u8 = 11;
    pub const WORKING: u8 = 12;
    pub const STATE: u8 = 13;
    pub const BUFFER: u8 = 14;
    pub const CROWDED: u8 = 15;
    pub const NOTHING: u8 = 16;
    pub const SCRIPT: u8 = 17;
    pub const RECORDING: u8 = 18;
    pub const DIFFERS: u8 = 19;
}

/// How many nodes the largest board has, N of rule N3.
pub const NODES: u32 = 96;

/// How many messages a node may send in a phase, S of rule N3.
pub const SENT_LIMIT: u32 = 65_535;

/// How many it may take: S from each of the other nodes of the largest board.
pub const TAKEN_LIMIT: u32 = (NODES - 1) * SENT_LIMIT;

/// The largest number in a frame, and the largest sum: S from each node of the largest board.
pub const FIELD_LIMIT: u32 = NODES * SENT_LIMIT;

/// The largest board has dimension 7, so no node has more shells.
pub const SHELLS: usize = 7;

/// The length of the longest frame (rule F3).
pub const LONGEST: usize = 68;

/// The words of a frame's fields (rule C6): seven numbers, then sent and taken by shell.
pub const FIELD_WORDS: usize = 7 + 2 * SHELLS;
