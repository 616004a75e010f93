//! Positions of edge facts: the first, the last, random ones.

use crate::random::Random;
use crate::rows::{mi_count, reference, superblock};
use springspade::Position;

/// The first position of a frame of one block.
pub const FIRST: Position = Position {
    pass: 0,
    mi_row: 0,
    mi_col: 0,
    edge: 0,
    i: 0,
    sub_x: 0,
    sub_y: 0,
    mi_cols: 1,
    mi_rows: 1,
    mi_size: 0,
    tx_size: 0,
    skip: 0,
    ref_frame: 0,
};

/// The last position of the last superblock of a frame, all its numbers the largest that are accepted.
pub const LAST: Position = Position {
    pass: 1,
    mi_row: 8,
    mi_col: 16,
    edge: 7,
    i: 31,
    sub_x: 1,
    sub_y: 1,
    mi_cols: 17,
    mi_rows: 9,
    mi_size: 12,
    tx_size: 3,
    skip: 1,
    ref_frame: 3,
};

/// A random position that is not refused.
pub fn position(random: &mut Random) -> Position {
    let [pass, sub_x, sub_y] = [(); 3].map(|()| u8::from(random.flag()));
    let (sub, along) = if pass == 0 { (sub_x, sub_y) } else { (sub_y, sub_x) };
    let (mi_cols, mi_rows) = (mi_count(random), mi_count(random));
    Position {
        pass,
        mi_row: superblock(random, mi_rows),
        mi_col: superblock(random, mi_cols),
        edge: random.between(0, (16 >> sub) - 1) as usize,
        i: random.between(0, (64 >> along) - 1) as usize,
        sub_x,
        sub_y,
        mi_cols,
        mi_rows,
        mi_size: random.between(0, 12) as u8,
        tx_size: random.between(0, 3) as u8,
        skip: random.flag().into(),
        ref_frame: reference(random),
    }
}
