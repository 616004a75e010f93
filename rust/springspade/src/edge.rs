//! Edge facts.

use crate::c::{self, Refusal};
use crate::refused::{Refused, accepted};

/// A position along an edge of a superblock, in a plane, and the mode info of the cell that it reads.
#[derive(Debug, Clone, Copy, PartialEq, Eq)]
pub struct Position {
    /// Whether the plane is subsampled across: 0 or 1, and 0 in plane 0.
    pub sub_x: u8,
    /// Whether the plane is subsampled down: 0 or 1, and 0 in plane 0.
    pub sub_y: u8,
    /// The frame's width in cells, 1 to 8,192.
    pub mi_cols: usize,
    /// The frame's height in cells, 1 to 8,192.
    pub mi_rows: usize,
    /// The superblock's first row, a multiple of 8 below `mi_rows`.
    pub mi_row: usize,
    /// The superblock's first column, a multiple of 8 below `mi_cols`.
    pub mi_col: usize,
    /// 0 for vertical edges, 1 for horizontal ones.
    pub pass: u8,
    /// Which edge of the superblock, 0 to 15, or to 7 where the plane is subsampled across it. Edges are 4 samples of the
    /// plane apart.
    pub edge: usize,
    /// Which sample along the edge, 0 to 63, or to 31 where the plane is subsampled along it.
    pub i: usize,
    /// The block's size, 0 for 4x4 to 12 for 64x64.
    pub mi_size: u8,
    /// The transform in this plane, 0 for 4x4 to 3 for 32x32.
    pub tx_size: u8,
    /// 1 where the block has no coefficients, else 0.
    pub skip: u8,
    /// The block's first reference: 0 for intra, 1 last, 2 golden, 3 altref.
    pub ref_frame: i32,
}

/// What is known of a position.
#[derive(Debug, Clone, Copy, PartialEq, Eq, Default)]
pub struct EdgeFacts {
    /// The position's column, in luma samples.
    pub x: usize,
    /// The position's row, in luma samples.
    pub y: usize,
    /// The column of the cell that it reads.
    pub loop_col: usize,
    /// The row of the cell that it reads.
    pub loop_row: usize,
    /// Whether it lies on an edge of its block.
    pub is_block_edge: bool,
    /// Whether it lies on an edge of its transform.
    pub is_tx_edge: bool,
    /// Whether its edge has a number that is a multiple of 8.
    pub is_32_edge: bool,
    /// Whether it lies inside the frame, and its edge is not the frame's left or upper border.
    pub on_screen: bool,
    /// Whether it is filtered, if its level is above 0.
    pub apply_filter: bool,
    /// The filter's size: 0 changes 4 samples at most, 1 changes 6 and 2 changes 14.
    pub filter_size: u8,
}

/// The facts of a position. Refused with 3, 4, 5, 8, 9, 10 or 16.
#[inline]
pub fn edge(at: &Position) -> Result<EdgeFacts, Refused> {
    let e = c::springspade_edge(
        at.sub_x,
        at.sub_y,
        at.mi_cols,
        at.mi_rows,
        at.mi_row,
        at.mi_col,
        at.pass,
        at.edge,
        at.i,
        at.mi_size,
        at.tx_size,
        at.skip,
        at.ref_frame,
    );
    accepted(Refusal { number: e.number, place: e.place })?;
    Ok(EdgeFacts {
        x: e.x,
        y: e.y,
        loop_col: e.loop_col,
        loop_row: e.loop_row,
        is_block_edge: e.is_block_edge,
        is_tx_edge: e.is_tx_edge,
        is_32_edge: e.is_32_edge,
        on_screen: e.on_screen,
        apply_filter: e.apply_filter,
        filter_size: e.filter_size,
    })
}
