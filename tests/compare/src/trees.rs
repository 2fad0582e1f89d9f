//! The tree of every board, and lookups that are refused.

use crate::library;
use crate::report::{same, Report};
use model::tree::{self, Place};
use model::NODES;

/// The number of a lookup and what it leaves in lent words that held a pattern.
fn expected<const N: usize>(answer: Result<[u32; N], u8>) -> (u32, [u32; N]) {
    match answer {
        Ok(words) => (0, words),
        Err(number) => (u32::from(number), [0xa5a5_a5a5; N]),
    }
}

fn place_words(place: Place) -> [u32; 3] {
    match place {
        Place::Alone => [0, 0, 0],
        Place::Hermit { awaits } => [1, awaits, 0],
        Place::Neighbour { neighbour } => [2, neighbour, 0],
        Place::Messenger { neighbour, hermit } => [3, neighbour, hermit],
    }
}

fn dimension(report: &mut Report, nodes: u32) {
    let mut found = [0xa5a5_a5a5; 1];
    let answer = library::dimension(nodes, &mut found);
    let model = expected(tree::dimension(nodes).map(|p| [p]));
    same("dimension", &(answer, found), &model, || format!("ocb_dimension({nodes}u, found);"));
    report.count("dimensions");
    report.answer("dimension", answer);
}

fn place(report: &mut Report, nodes: u32, node: u32, k: u32) {
    let mut found = [0xa5a5_a5a5; 3];
    let answer = library::place(nodes, k, node, &mut found);
    let model = expected(tree::place(nodes, node, k).map(place_words));
    same("place", &(answer, found), &model, || format!("ocb_place({nodes}u, {k}u, {node}u, found);"));
    report.count("places");
    report.answer("place", answer);
    let bad = nodes == 0 || nodes > NODES;
    let deep = !bad && tree::dimension(nodes).is_ok_and(|p| k >= p);
    report.order("place", &[("1", 1, bad), ("2", 2, node >= nodes), ("10", 10, deep)], answer);
}

fn distance(report: &mut Report, nodes: u32, a: u32, b: u32) {
    let mut found = [0xa5a5_a5a5; 1];
    let answer = library::distance(nodes, a, b, &mut found);
    let model = expected(tree::distance(nodes, a, b).map(|d| [d]));
    same("distance", &(answer, found), &model, || format!("ocb_distance({nodes}u, {a}u, {b}u, found);"));
    report.count("distances");
    report.answer("distance", answer);
    let bad = nodes == 0 || nodes > NODES;
    report.order("distance", &[("1", 1, bad), ("2", 2, a >= nodes || b >= nodes), ("3", 3, a == b)], answer);
}

pub fn compare(report: &mut Report) {
    let odd = [0, 1, 2, 6, 7, 8, 9, 95, 96, 97, 128, 129, 255, 256, 257, 65_535, 65_536, u32::MAX - 1, u32::MAX];
    for nodes in (0..=300).chain(odd) {
        dimension(report, nodes);
        for a in odd {
            for b in odd {
                place(report, nodes, a, b);
                distance(report, nodes, a, b);
            }
        }
    }
    for nodes in 1..=NODES {
        for a in 0..nodes {
            for k in 0..9 {
                place(report, nodes, a, k);
            }
            for b in 0..nodes {
                distance(report, nodes, a, b);
            }
        }
    }
}
