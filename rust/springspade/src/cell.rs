//! A packed cell.

use crate::c;

pub use crate::c::LfCell as Cell;

/// The fields of a packed cell, for a look at what [`row`](crate::row) made. Any word has fields.
#[must_use]
#[inline]
pub fn cell(word: u32) -> Cell {
    c::springspade_cell(word)
}

/// Packed cells as [`pass_bytes`](crate::pass_bytes) takes them: four bytes to a cell, the most significant first.
#[must_use]
pub fn cell_bytes(cells: &[u32]) -> Vec<u8> {
    cells.iter().flat_map(|word| word.to_be_bytes()).collect()
}
