//! What libvpx asked of the line filter in a frame, position by position.

use super::{Cell, Frame, plane_size};
use crate::passes::subsampling;
use springspade::Position;

impl Frame {
    /// Each x and y of a plane at which an edge may be, and what libvpx asked of the line filter there:
    /// size * 64 + level, or 0 for nothing.
    pub fn calls(&self, plane: u8, pass: u8) -> impl Iterator<Item = (usize, usize, u8)> {
        let (width, _) = plane_size(&self.frame, plane);
        let (right, down) = if pass == 0 { (4, 1) } else { (1, 4) };
        let columns = width / right;
        let calls = self.calls[plane as usize][pass as usize].iter().enumerate();
        calls.map(move |(k, &call)| (k % columns * right, k / columns * down, call))
    }

    /// The position of a plane's x and y, and the cell that it reads.
    pub fn position(&self, plane: u8, pass: u8, x: usize, y: usize) -> (Position, &Cell) {
        let springspade::Frame { mi_cols, mi_rows, .. } = self.frame;
        let (sub_x, sub_y) = subsampling(&self.frame, plane);
        // Samples of the plane in a superblock.
        let (wide, high) = (64 >> sub_x, 64 >> sub_y);
        let (edge, i) = if pass == 0 { (x % wide / 4, y % high) } else { (y % high / 4, x % wide) };
        // Two subsampled blocks have one cell.
        let (loop_col, loop_row) = ((x / 8) << sub_x, (y / 8) << sub_y);
        let cell = &self.cells[loop_row * mi_cols + loop_col];
        let position = Position {
            pass,
            mi_row: y / high * 8,
            mi_col: x / wide * 8,
            edge,
            i,
            sub_x,
            sub_y,
            mi_cols,
            mi_rows,
            mi_size: cell.block.mi_size,
            tx_size: if plane == 0 { cell.block.tx_size } else { cell.uvtx },
            skip: cell.block.skip,
            ref_frame: cell.block.ref_frame,
        };
        (position, cell)
    }
}
