//! The runs that the Rust's pass calls its kernel for.

use super::pass::{hook_cells, levelled};
use crate::passes::Pass;
use crate::sheets::runs::Run;
use oracle::observed_runs::hook_runs;
use springspade::{Frame, Superblock};

/// The runs in the order of the calls; none where the Rust panics for a cell without level.
pub fn runs(pass: &Pass) -> Option<Vec<Run>> {
    let Frame { sharpness, bit_depth: depth, sub_x, sub_y, mi_cols, mi_rows } = pass.frame;
    let Superblock { mi_row: row, mi_col: col, plane, pass: number } = pass.at;
    let cells = hook_cells(pass);
    let [mi_cols, mi_rows, row, col] = [mi_cols, mi_rows, row, col].map(|n| n as u32);
    let calls = levelled(|| {
        hook_runs(
            &cells, row, mi_cols, mi_rows, sub_x, sub_y, depth, sharpness, plane, number, row, col,
        )
    })?;
    let run = |(edge, i0, n, size, level)| Run {
        edge: edge as usize,
        first: i0 as usize,
        count: n as usize,
        size,
        level,
    };
    Some(calls.into_iter().map(run).collect())
}
