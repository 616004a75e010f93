//! Document 01's section on cells and edges, read once more in plain Rust.

use differential::cells::{packed, unpacked};
use differential::random::Random;
use differential::returned::*;
use differential::rows::{Block, Row};
use springspade::*;
use std::array;

/// Width and height of each block size, in samples.
const SIZES: [(usize, usize); 13] = [
    (4, 4),
    (4, 8),
    (8, 4),
    (8, 8),
    (8, 16),
    (16, 8),
    (16, 16),
    (16, 32),
    (32, 16),
    (32, 32),
    (32, 64),
    (64, 32),
    (64, 64),
];

/// Width and height in 8-sample blocks. For subsampling 1 the size is first raised to at least 6.
fn blocks(mi_size: u8, sub: u8) -> (usize, usize) {
    let (width, height) = SIZES[if sub == 1 { mi_size.max(6) } else { mi_size } as usize];
    (width.div_ceil(8), height.div_ceil(8))
}

/// The largest transform of the chroma shape; sizes under 3 and shapes that do not exist have 0.
fn chroma_transform(mi_size: u8, sub_x: u8, sub_y: u8) -> u8 {
    let (width, height) = SIZES[mi_size as usize];
    let shape = (width >> sub_x, height >> sub_y);
    if mi_size < 3 || !SIZES.contains(&shape) {
        return 0;
    }
    (shape.0.min(shape.1) / 4).ilog2().min(3) as u8
}

/// The cell of a block, in a frame of this one.
fn cell_of(block: Block, levels: [u8; 64], sub_x: u8, sub_y: u8) -> Cell {
    let frame = Frame { sharpness: 0, bit_depth: 8, sub_x, sub_y, mi_cols: 1, mi_rows: 1 };
    let row = Row { frame, base: 0, levels, blocks: [block].into_iter().collect() };
    let mut words = [0];
    assert_eq!(row.ours(&mut words), Returned { number: 0, place: 0 });
    let (cell, zeros) = unpacked(words[0]);
    assert_eq!(zeros, 0, "{block:?}");
    cell
}

const BLOCK: Block =
    Block { mi_size: 3, tx_size: 0, skip: 0, ref_frame: 0, y_mode: 0, segment_id: 0 };

#[test]
fn sizes_and_transforms() {
    for mi_size in 0..=12 {
        for tx_size in 0..=3 {
            for (sub_x, sub_y) in [(0, 0), (0, 1), (1, 0), (1, 1)] {
                let cell = cell_of(Block { mi_size, tx_size, ..BLOCK }, [9; 64], sub_x, sub_y);
                let logarithms = |(width, height): (usize, usize)| [width.ilog2(), height.ilog2()];
                let [width0, height0] = logarithms(blocks(mi_size, 0)).map(|log| log as u8);
                let [width1, height1] = logarithms(blocks(mi_size, 1)).map(|log| log as u8);
                let uvtx = tx_size.min(chroma_transform(mi_size, sub_x, sub_y));
                let (skipped, present, level) = (false, true, 9);
                let expected = Cell {
                    width0,
                    width1,
                    height0,
                    height1,
                    tx: tx_size,
                    uvtx,
                    skipped,
                    present,
                    level,
                };
                assert_eq!(cell, expected, "size {mi_size}, subsampling {sub_x} {sub_y}");
            }
        }
    }
}

/// An absent level is written 0; a row with such a cell is accepted.
#[test]
fn levels() {
    let table: [u8; 64] = array::from_fn(|k| k as u8);
    for segment_id in [0, 1, 2, 3, 4, 5, 6, 7, 8, 9, 128, 255] {
        for ref_frame in [i32::MIN, -1, 0, 1, 2, 3, 4, 5, 256, i32::MAX] {
            for y_mode in [0, 9, 10, 11, 12, 13, 14, 138, 255] {
                let block = Block { ref_frame, y_mode, segment_id, ..BLOCK };
                let cell = cell_of(block, table, 0, 0);
                let present = segment_id <= 7 && (0..=3).contains(&ref_frame);
                let mode_type = u8::from(matches!(y_mode, 10 | 11 | 13));
                let level =
                    if present { segment_id * 8 + ref_frame as u8 * 2 + mode_type } else { 0 };
                assert_eq!((cell.present, cell.level), (present, level), "{block:?}");
            }
        }
    }
}

/// Skipped-inter: skip set and reference above 0, whatever the level.
#[test]
fn skipped() {
    for ref_frame in [i32::MIN, -1, 0, 1, 2, 3, 4, i32::MAX] {
        for skip in 0..=1 {
            let cell = cell_of(Block { skip, ref_frame, ..BLOCK }, [0; 64], 0, 0);
            assert_eq!(cell.skipped, skip == 1 && ref_frame > 0, "reference {ref_frame}");
        }
    }
}

/// Words that no size makes are read by the same rules, and so are those with zero bits set.
#[test]
fn words() {
    let mut random = Random(12);
    let bits = (0..32).flat_map(|bit| [1 << bit, !(1 << bit)]);
    let any = (0..100_000).map(|_| random.number() as u32);
    for word in [0, u32::MAX].into_iter().chain(bits).chain(any) {
        let (expected, zeros) = unpacked(word);
        assert_eq!(cell(word), expected, "{word:08x}");
        assert_eq!(packed(&expected), word - zeros, "{word:08x}");
    }
}

/// What the section says of a position.
fn facts(at: &Position) -> EdgeFacts {
    let vertical = at.pass == 0;
    // Edges are 4 plane samples apart.
    let (across, along) = (at.edge * 4, at.i);
    let (plane_x, plane_y) = if vertical { (across, along) } else { (along, across) };
    let x = 8 * at.mi_col + (plane_x << at.sub_x);
    let y = 8 * at.mi_row + (plane_y << at.sub_y);
    let (luma, sub) = if vertical { (x, at.sub_x) } else { (y, at.sub_y) };
    let (wide, high) = blocks(at.mi_size, sub);
    let is_block_edge = luma % (8 * if vertical { wide } else { high }) == 0;
    // With those behind it, which are off screen.
    let last_column = !vertical
        && at.sub_x == 1
        && at.mi_cols % 2 == 1
        && at.edge % 2 == 1
        && x / 8 >= at.mi_cols - 1;
    let is_tx_edge = !last_column && at.edge.is_multiple_of(1 << at.tx_size);
    let on_screen = luma != 0 && x < 8 * at.mi_cols && y < 8 * at.mi_rows;
    let skipped = at.skip == 1 && at.ref_frame > 0;
    let at_last = if vertical { x / 8 == at.mi_cols - 1 } else { y / 8 == at.mi_rows - 1 };
    let size = match at.tx_size {
        0 if at.edge == 0 || at.edge == 8 => 1,
        2.. if sub == 1 && at_last => 1,
        tx => tx.min(2),
    };
    EdgeFacts {
        x,
        y,
        // The cell is rounded down to the subsampling grid.
        loop_col: x / 8 - x / 8 % (1 + at.sub_x as usize),
        loop_row: y / 8 - y / 8 % (1 + at.sub_y as usize),
        is_block_edge,
        is_tx_edge,
        is_32_edge: at.edge == 0 || at.edge == 8,
        on_screen,
        apply_filter: on_screen && (is_block_edge || is_tx_edge && !skipped),
        filter_size: size,
    }
}

/// Every position of a superblock.
fn grid(pass: u8, sub_x: u8, sub_y: u8) -> impl Iterator<Item = (usize, usize)> {
    let (sub, along) = if pass == 0 { (sub_x, sub_y) } else { (sub_y, sub_x) };
    (0..16 >> sub).flat_map(move |edge| (0..64 >> along).map(move |i| (edge, i)))
}

/// Every block size, transform and skip, with references around 0, at every position of a superblock.
fn compare(pass: u8, (sub_x, sub_y): (u8, u8), (mi_cols, mi_rows): (usize, usize)) {
    let (row, col) = ((mi_rows - 1) / 8 * 8, (mi_cols - 1) / 8 * 8);
    for (edge, i) in grid(pass, sub_x, sub_y) {
        for mi_size in 0..=12 {
            for (tx_sz, skip, ref_frame) in (0..24).map(|k| (k % 4, k / 4 % 2, k as i32 / 8 - 1)) {
                let at = Position {
                    pass,
                    mi_row: row,
                    mi_col: col,
                    edge,
                    i,
                    sub_x,
                    sub_y,
                    mi_cols,
                    mi_rows,
                    mi_size,
                    tx_size: tx_sz,
                    skip,
                    ref_frame,
                };
                assert_eq!(springspade::edge(&at), Ok(facts(&at)), "{at:?}");
            }
        }
    }
}

/// The last superblocks of some frames.
#[test]
fn edges() {
    for size in [(1, 1), (2, 2), (5, 4), (8, 7), (12, 11), (8191, 8192)] {
        for subsampling in [(0, 0), (0, 1), (1, 0), (1, 1)] {
            compare(0, subsampling, size);
            compare(1, subsampling, size);
        }
    }
}
