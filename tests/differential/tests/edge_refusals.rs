//! Refusals of edge facts: what just passes, what just does not, and which of several comes first.

use differential::edges::LAST;
use differential::returned::{Returned, edge_returned};
use springspade::{EdgeFacts, Position, Refused, edge};

fn accepted(at: &Position) {
    let (returned, facts) = edge_returned(at);
    assert_eq!(returned, Returned { number: 0, place: 0 }, "{at:?}");
    assert_eq!(edge(at), Ok(facts));
}

/// Refused at place 0, with no facts.
fn refused(at: &Position, number: u32) {
    let (returned, facts) = edge_returned(at);
    assert_eq!(returned, Returned { number, place: 0 }, "{at:?}");
    assert_eq!(facts, EdgeFacts::default(), "{at:?}");
    assert_eq!(edge(at), Err(Refused { number, place: 0 }));
}

/// Accepted or refused with this number.
fn passes(at: &Position, passes: bool, number: u32) {
    if passes { accepted(at) } else { refused(at, number) }
}

#[test]
fn subsampling() {
    for a in 0..=255 {
        for b in [0, 1, 2, 255] {
            for (sub_x, sub_y) in [(a, b), (b, a)] {
                passes(&Position { sub_x, sub_y, ..LAST }, sub_x <= 1 && sub_y <= 1, 3);
            }
        }
    }
}

/// Numbers of more than 32 bits. The lower 32 of the first two could pass.
const LARGE: [usize; 3] = [1 << 32, (1 << 32) + 8, usize::MAX - 7];

#[test]
fn frame_sizes() {
    let first = Position { mi_row: 0, mi_col: 0, ..LAST };
    for mi in [1, 2, 8191, 8192] {
        accepted(&Position { mi_cols: mi, ..first });
        accepted(&Position { mi_rows: mi, ..first });
    }
    for mi in [0, 8193, 16384, usize::MAX].into_iter().chain(LARGE) {
        refused(&Position { mi_cols: mi, ..first }, 4);
        refused(&Position { mi_rows: mi, ..first }, 4);
        refused(&Position { mi_cols: mi, mi_rows: mi, ..first }, 4);
    }
}

#[test]
fn superblocks() {
    for mi in 1..=40 {
        for at in 0..=48 {
            let starts = at % 8 == 0 && at < mi;
            passes(&Position { mi_row: at, mi_rows: mi, ..LAST }, starts, 5);
            passes(&Position { mi_col: at, mi_cols: mi, ..LAST }, starts, 10);
        }
    }
    let largest = Position { mi_row: 8184, mi_col: 8184, mi_cols: 8192, mi_rows: 8192, ..LAST };
    accepted(&largest);
    for at in [8191, 8192, usize::MAX].into_iter().chain(LARGE) {
        refused(&Position { mi_row: at, ..largest }, 5);
        refused(&Position { mi_col: at, ..largest }, 10);
    }
}

#[test]
fn blocks() {
    for number in 0..=255 {
        passes(&Position { mi_size: number, ..LAST }, number <= 12, 8);
        passes(&Position { tx_size: number, ..LAST }, number <= 3, 8);
        passes(&Position { skip: number, ..LAST }, number <= 1, 8);
        accepted(&Position { ref_frame: number.into(), ..LAST });
    }
    for ref_frame in [i32::MIN, -256, -1, 256, i32::MAX] {
        accepted(&Position { ref_frame, ..LAST });
    }
}

#[test]
fn passes_refused() {
    for pass in 0..=255 {
        passes(&Position { pass, ..LAST }, pass <= 1, 9);
    }
}

/// 16 edges and 64 positions, halved where their own direction is subsampled.
#[test]
fn grid() {
    for (pass, sub_x, sub_y, edges, positions) in [
        (0, 0, 0, 16, 64),
        (0, 0, 1, 16, 32),
        (0, 1, 0, 8, 64),
        (0, 1, 1, 8, 32),
        (1, 0, 0, 16, 64),
        (1, 0, 1, 8, 64),
        (1, 1, 0, 16, 32),
        (1, 1, 1, 8, 32),
    ] {
        let at = Position { pass, sub_x, sub_y, ..LAST };
        for edge in 0..=20 {
            for i in 0..=70 {
                passes(&Position { edge, i, ..at }, edge < edges && i < positions, 16);
            }
        }
        for large in [usize::MAX].into_iter().chain(LARGE) {
            refused(&Position { edge: large, i: 0, ..at }, 16);
            refused(&Position { edge: 0, i: large, ..at }, 16);
        }
    }
}

const NUMBERS: [u32; 7] = [3, 4, 5, 8, 9, 10, 16];

/// The faults of each number.
fn faults() -> [Vec<fn(&mut Position)>; 7] {
    [
        vec![|at| at.sub_x = 2, |at| at.sub_y = 2],
        vec![|at| at.mi_cols = 0, |at| at.mi_rows = 0, |at| at.mi_cols = 8193, |at| {
            at.mi_rows = 8193
        }],
        vec![|at| at.mi_row = 1, |at| at.mi_row = 16],
        vec![|at| at.mi_size = 13, |at| at.tx_size = 4, |at| at.skip = 2],
        vec![|at| at.pass = 2],
        vec![|at| at.mi_col = 1, |at| at.mi_col = 24],
        vec![|at| at.edge = 16, |at| at.i = 64],
    ]
}

/// Of several refusals the lowest number is returned: every set of faults, each fault in every way.
#[test]
fn lowest_number() {
    let faults = faults();
    for set in 1u32..128 {
        for way in 0..12 {
            let mut at = LAST;
            for (k, ways) in faults.iter().enumerate() {
                if set >> k & 1 == 1 {
                    ways[way % ways.len()](&mut at);
                }
            }
            refused(&at, NUMBERS[set.trailing_zeros() as usize]);
        }
    }
}
