//! Blocks of mixed sizes, as a stream's partitions have them.

use differential::random::Random;
use differential::rows::{Block, Blocks};

/// Eight rows of blocks from 8x8 on, split at random.
pub fn mixed(random: &mut Random, mi_cols: usize) -> Blocks {
    let mut cells = vec![None; 8 * mi_cols];
    for col in (0..mi_cols).step_by(8) {
        split(random, &mut cells, mi_cols, 0, col, 3);
    }
    cells.into_iter().map(Option::unwrap).collect()
}

/// A square of 2 to `log` cells, as one block, as two halves, or split into quarters.
fn split(
    random: &mut Random,
    cells: &mut [Option<Block>],
    mi_cols: usize,
    row: usize,
    col: usize,
    log: u32,
) {
    let side = 1 << log;
    let half = side / 2;
    // 64x64 is split most often.
    let way = random.between(0, 3 + i64::from(log));
    if log > 0 && way > 2 {
        for (down, right) in [(0, 0), (0, half), (half, 0), (half, half)] {
            split(random, cells, mi_cols, row + down, col + right, log - 1);
        }
        return;
    }
    // Sizes come in threes: a square, then twice its height, then twice its width.
    let whole = 3 * log as u8 + 3;
    let (mi_size, high, wide) = match way {
        1 if log > 0 => (whole - 2, side, half),
        2 if log > 0 => (whole - 1, half, side),
        _ => (whole, side, side),
    };
    for (down, right) in
        (0..side).step_by(high).flat_map(|y| (0..side).step_by(wide).map(move |x| (y, x)))
    {
        let block = block(random, mi_size, log);
        for y in 0..high {
            let start = (row + down + y) * mi_cols + col + right;
            cells[start..start + wide].fill(Some(block));
        }
    }
}

/// A block of this size, its transform no larger than its smaller side.
fn block(random: &mut Random, mi_size: u8, log: u32) -> Block {
    let is_square = mi_size.is_multiple_of(3);
    let largest = (log as i64 + i64::from(is_square)).min(3);
    Block {
        mi_size,
        tx_size: random.between((largest - 1).max(0), largest) as u8,
        skip: random.flag().into(),
        ref_frame: random.between(0, 3) as i32,
        y_mode: random.one_of(&[0, 10, 12, 13]),
        segment_id: 0,
    }
}
