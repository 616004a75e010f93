//! The runs of a pass: by document 01, and the Rust's where it is at hand.

use crate::passes::Pass;
use crate::positions::{Position, decided, levelless};
use springspade::Refused;

/// So many positions at most are a run.
const MOST: usize = 16;

#[derive(Debug, Clone, Copy, PartialEq, Eq)]
pub struct Run {
    pub edge: usize,
    /// The first position, and how many there are.
    pub first: usize,
    pub count: usize,
    pub size: u8,
    pub level: u8,
}

/// The runs of a pass that is refused for nothing but a cell without level. Where the Rust is at hand they
/// are those of its own grouping, and it panics exactly where the pass is refused.
pub fn runs(pass: &Pass) -> Result<Vec<Run>, Refused> {
    let runs = match levelless(pass) {
        Some(place) => Err(Refused { number: 14, place }),
        None => Ok(joined(&decided(pass))),
    };
    #[cfg(oracle)]
    assert_eq!(runs.clone().ok(), crate::rust::runs(pass), "the Rust, {}", pass.call());
    runs
}

/// Joins positions one by one, where the Rust joins cells. Those at level 0 filter nothing.
fn joined(positions: &[Position]) -> Vec<Run> {
    let mut runs = Vec::<Run>::new();
    for &Position { edge, i, cell, size, .. } in positions.iter().filter(|at| at.cell.level > 0) {
        let level = cell.level;
        match runs.last_mut() {
            Some(run)
                if (run.edge, run.size, run.level) == (edge, size, level)
                    && run.first + run.count == i
                    && run.count < MOST =>
            {
                run.count += 1;
            }
            _ => runs.push(Run { edge, first: i, count: 1, size, level }),
        }
    }
    runs
}
