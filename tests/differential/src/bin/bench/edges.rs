//! Edge facts, one position at a time.

use crate::row::{nanoseconds, row};
use differential::{edges, random::Random, rust};
use springspade::{Position, edge};
use std::hint::black_box;

const RUNS: usize = 500;

/// So many that the branch predictor cannot learn them.
const POSITIONS: usize = 16_384;

pub fn rows() {
    let mut random = Random(16);
    let positions: Vec<Position> = (0..POSITIONS).map(|_| edges::position(&mut random)).collect();
    let (ours, rust) = (|| all(&positions, edge), || all(&positions, rust::edge));
    row("edge facts of a position", RUNS, POSITIONS, ours, rust);
}

fn all<T>(positions: &[Position], facts: impl Fn(&Position) -> T) -> f64 {
    nanoseconds(|| {
        for at in positions {
            black_box(facts(black_box(at)));
        }
    })
}
