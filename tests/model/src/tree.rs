//! The tree (rule T1 to rule T6): dimension, runs, places, partners and distance.

use crate::{no, NODES};

/// The nodes first to last.
#[derive(Clone, Copy, Debug, PartialEq, Eq)]
pub struct Run {
    pub first: u32,
    pub last: u32,
}

/// What a node is in a dimension.
#[derive(Clone, Copy, Debug, PartialEq, Eq)]
pub enum Place {
    Alone,
    Hermit { awaits: u32 },
    Neighbour { neighbour: u32 },
    Messenger { neighbour: u32, hermit: u32 },
}

impl Run {
    fn count(self) -> u32 {
        self.last - self.first + 1
    }

    fn has(self, node: u32) -> bool {
        self.first <= node && node <= self.last
    }

    /// Rule T3: the two parts of a run; a run of one node has no right part.
    fn split(self) -> (Run, Option<Run>) {
        let middle = (self.first + self.last) / 2;
        let left = Run { first: self.first, last: middle };
        if self.count() == 1 {
            return (left, None);
        }
        (left, Some(Run { first: middle + 1, last: self.last }))
    }
}

/// Rule T2: the smallest number p with P ≤ 2^p.
pub fn dimension(board: u32) -> Result<u32, u8> {
    if board == 0 || board > NODES {
        return Err(no::BOARD);
    }
    let mut p = 0;
    while board > 1 << p {
        p += 1;
    }
    Ok(p)
}

/// The refusals of a lookup in a dimension, in the order of rule R3. Gives p.
fn admit(board: u32, node: u32, k: u32) -> Result<u32, u8> {
    let p = dimension(board)?;
    if node >= board {
        return Err(no::STRANGER);
    }
    if k >= p {
        return Err(no::FIELD);
    }
    Ok(p)
}

/// Rule T3: the run of a node in dimension k, by splits of the whole board. Wants a node of the board and k
/// at most p.
fn descend(board: u32, p: u32, node: u32, k: u32) -> Run {
    let mut run = Run { first: 0, last: board - 1 };
    for _ in k..p {
        run = match run.split() {
            (_, Some(right)) if right.has(node) => right,
            (left, _) => left,
        };
    }
    run
}

/// The run of a node in dimension k below p.
pub fn run(board: u32, node: u32, k: u32) -> Result<Run, u8> {
    let p = admit(board, node, k)?;
    Ok(descend(board, p, node, k))
}

/// What the node is in dimension k below p.
pub fn place(board: u32, node: u32, k: u32) -> Result<Place, u8> {
    let p = admit(board, node, k)?;
    Ok(match descend(board, p, node, k + 1).split() {
        // Its run has no sibling.
        (_, None) => Place::Alone,
        (left, Some(right)) if left.has(node) => place_left(left, right, node),
        (left, Some(right)) => place_right(left, right, node),
    })
}

/// Rule T4 for the left part: its last node is a hermit where it is the longer one.
fn place_left(left: Run, right: Run, node: u32) -> Place {
    if left.count() > right.count() && node == left.last {
        return Place::Hermit { awaits: node + 1 };
    }
    // The node at the same place of the other part.
    Place::Neighbour { neighbour: right.first + (node - left.first) }
}

/// Rule T4 for the right part: its first node is the messenger where there is a hermit.
fn place_right(left: Run, right: Run, node: u32) -> Place {
    let neighbour = left.first + (node - right.first);
    if left.count() > right.count() && node == left.last + 1 {
        return Place::Messenger { neighbour, hermit: left.last };
    }
    Place::Neighbour { neighbour }
}

/// The node whose frame is awaited in dimension k, if any.
pub fn awaited(board: u32, node: u32, k: u32) -> Result<Option<u32>, u8> {
    Ok(match place(board, node, k)? {
        Place::Alone => None,
        Place::Hermit { awaits } => Some(awaits),
        Place::Neighbour { neighbour } => Some(neighbour),
        Place::Messenger { neighbour, .. } => Some(neighbour),
    })
}

/// The nodes that get this node's frame of dimension k, the neighbour first.
pub fn receivers(board: u32, node: u32, k: u32) -> Result<Vec<u32>, u8> {
    Ok(match place(board, node, k)? {
        Place::Alone | Place::Hermit { .. } => vec![],
        Place::Neighbour { neighbour } => vec![neighbour],
        Place::Messenger { neighbour, hermit } => vec![neighbour, hermit],
    })
}

/// Rule T6: the largest dimension in which the runs of two nodes differ.
pub fn distance(board: u32, a: u32, b: u32) -> Result<u32, u8> {
    let p = dimension(board)?;
    if a >= board || b >= board {
        return Err(no::STRANGER);
    }
    if a == b {
        return Err(no::SELF);
    }
    let apart = |k: &u32| descend(board, p, a, *k) != descend(board, p, b, *k);
    Ok((0..p).filter(apart).max().expect("runs of dimension 0 have one node"))
}
