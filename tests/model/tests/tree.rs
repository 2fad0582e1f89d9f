//! The tree: the boards to try, facts for every P, and the order of refusals.

use model::tree::{awaited, dimension, distance, place, receivers, run, Place};
use model::{NODES, SHELLS};

#[test]
fn dimensions_of_boards_to_try() {
    let boards = [1, 2, 3, 4, 5, 8, 9, 16, 17, 32, 33, 64, 65, 95, 96];
    let p: Vec<_> = boards.into_iter().map(|board| dimension(board).unwrap()).collect();
    assert_eq!(p, [0, 1, 2, 2, 3, 3, 4, 4, 5, 5, 6, 6, 7, 7, 7]);
    assert_eq!(dimension(NODES), Ok(SHELLS as u32));
}

/// Rule T2 alone would give 97 to 128 nodes a p of 7, and 129 nodes one of 8.
#[test]
fn boards_that_are_refused() {
    for board in [0, 97, 98, 127, 128, 129, 255, 256, 257, 65_536, u32::MAX] {
        assert_eq!(dimension(board), Err(1));
        assert_eq!(place(board, 0, 0), Err(1));
        assert_eq!(distance(board, 0, 1), Err(1));
    }
}

#[test]
fn places_of_boards_to_try() {
    assert_eq!(place(6, 2, 0), Ok(Place::Alone));
    assert_eq!(place(6, 2, 1), Ok(Place::Messenger { neighbour: 0, hermit: 1 }));
    assert_eq!(place(6, 2, 2), Ok(Place::Neighbour { neighbour: 5 }));
    assert_eq!(receivers(6, 2, 0), Ok(vec![]));
    assert_eq!(receivers(6, 2, 1), Ok(vec![0, 1]));
    assert_eq!(receivers(6, 2, 2), Ok(vec![5]));
    assert_eq!(place(5, 2, 2), Ok(Place::Hermit { awaits: 3 }));
    assert_eq!(awaited(5, 2, 2), Ok(Some(3)));
    assert_eq!(receivers(5, 2, 2), Ok(vec![]));
}

#[test]
fn distances_of_boards_to_try() {
    assert_eq!(distance(6, 1, 2), Ok(1));
    assert_eq!(distance(6, 2, 5), Ok(2));
}

#[test]
fn dimension_is_the_smallest_for_every_board() {
    for board in 1..=NODES {
        let p = dimension(board).unwrap();
        assert!(board <= 1 << p && (p == 0 || board > 1 << (p - 1)));
    }
}

/// Runs follow each other without gaps, and each lies in the run of the dimension above.
#[test]
fn runs_cover_every_board() {
    for board in 1..=NODES {
        let p = dimension(board).unwrap();
        for k in 0..p {
            for node in 0..board {
                let own = run(board, node, k).unwrap();
                assert!(own.first <= node && node <= own.last && own.last < board);
                assert!(k > 0 || own.first == own.last);
                assert!(own.last - own.first < 1 << k);
                for other in [own.first, own.last] {
                    assert_eq!(run(board, other, k), Ok(own));
                }
                if k + 1 < p {
                    let above = run(board, node, k + 1).unwrap();
                    assert!(above.first <= own.first && own.last <= above.last);
                }
            }
        }
    }
}

/// Who awaits a node is who gets its frame, for every board, node and dimension.
#[test]
fn receivers_are_those_that_await() {
    for board in 1..=NODES {
        for k in 0..dimension(board).unwrap() {
            let mut awaiting = vec![vec![]; board as usize];
            for node in 0..board {
                if let Some(other) = awaited(board, node, k).unwrap() {
                    awaiting[other as usize].push(node);
                    assert_eq!(distance(board, node, other), Ok(k));
                }
            }
            for node in 0..board {
                let mut gets = receivers(board, node, k).unwrap();
                assert!(gets.len() <= 2);
                gets.sort();
                assert_eq!(gets, awaiting[node as usize]);
            }
        }
    }
}

/// A node is alone in dimension 0 only, and never in the last one (rule T5).
#[test]
fn alone_in_dimension_0_only() {
    for board in 1..=NODES {
        let p = dimension(board).unwrap();
        for node in 0..board {
            for k in 0..p {
                let alone = place(board, node, k) == Ok(Place::Alone);
                assert!(!alone || (k == 0 && k + 1 != p));
            }
        }
    }
}

/// A hermit awaits the next node, which names it after a neighbour of its own.
#[test]
fn hermits_and_messengers() {
    for board in 1..=NODES {
        for k in 0..dimension(board).unwrap() {
            for node in 0..board {
                match place(board, node, k).unwrap() {
                    Place::Hermit { awaits } => {
                        assert_eq!(awaits, node + 1);
                        let gets = receivers(board, awaits, k).unwrap();
                        assert_eq!((gets.len(), gets[1]), (2, node));
                    }
                    Place::Messenger { neighbour, hermit } => {
                        assert_eq!(hermit + 1, node);
                        assert_eq!(place(board, hermit, k), Ok(Place::Hermit { awaits: node }));
                        assert_eq!(awaited(board, neighbour, k), Ok(Some(node)));
                    }
                    Place::Neighbour { neighbour } => {
                        assert_eq!(awaited(board, neighbour, k), Ok(Some(node)));
                    }
                    Place::Alone => {}
                }
            }
        }
    }
}

#[test]
fn distance_is_the_largest_dimension_of_different_runs() {
    for board in [2, 3, 5, 6, 7, 11, 16, 23, 33, 61, 64, 65, 95, 96] {
        let p = dimension(board).unwrap();
        for a in 0..board {
            for b in (0..board).filter(|&b| b != a) {
                let far = distance(board, a, b).unwrap();
                assert_eq!(distance(board, b, a), Ok(far));
                assert_ne!(run(board, a, far), run(board, b, far));
                assert!((far + 1..p).all(|k| run(board, a, k) == run(board, b, k)));
            }
        }
    }
}

/// Lookups: 1, 2, then 10 for a place and 3 for a distance (rule R3).
#[test]
fn order_of_refusals() {
    let values = [0, 1, 2, 3, 5, 6, 7, 8, 9, 16, 95, 96, 97, 128, 129, 255, 256, 257, 65_536, u32::MAX];
    for board in values {
        for node in values {
            for third in values {
                let p = dimension(board).unwrap_or(0);
                let by_k = first(&[(board == 0 || board > NODES, 1), (node >= board, 2), (third >= p, 10)]);
                assert_eq!(place(board, node, third).err(), by_k);
                assert_eq!(run(board, node, third).err(), by_k);
                assert_eq!(awaited(board, node, third).err(), by_k);
                assert_eq!(receivers(board, node, third).err(), by_k);
                let stranger = node >= board || third >= board;
                let by_pair = first(&[(board == 0 || board > NODES, 1), (stranger, 2), (node == third, 3)]);
                assert_eq!(distance(board, node, third).err(), by_pair);
            }
        }
    }
}

fn first(conditions: &[(bool, u8)]) -> Option<u8> {
    conditions.iter().find(|(met, _)| *met).map(|(_, number)| *number)
}
