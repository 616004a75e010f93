//! Refusals of the row: what just passes, what just does not, and which of several comes first.

use differential::returned::Returned;
use differential::rows::{BAD, Block, Row};

/// A word that no row makes.
const BEFORE: u32 = 0xffff_ffff;

/// Three by two cells in the last rows of a frame.
fn small() -> Row {
    Row::largest(3, 10, 8)
}

/// What the row returns, and its words.
fn run(row: &Row, length: usize) -> (Returned, Vec<u32>) {
    let mut words = vec![BEFORE; length];
    (row.ours(&mut words), words)
}

/// All cells are written, and none of the two words behind them.
fn accepted(row: &Row) {
    for behind in [0, 2] {
        let (returned, words) = run(row, row.cells() + behind);
        assert_eq!(returned, Returned { number: 0, place: 0 }, "{row:?}");
        let (cells, left) = words.split_at(row.cells());
        assert!(cells.iter().all(|&word| word != BEFORE), "{row:?}");
        assert!(left.iter().all(|&word| word == BEFORE), "{row:?}");
    }
}

/// Refused over so many words, which are all left.
fn refused_over(row: &Row, length: usize, number: u32, place: u32) {
    let (returned, words) = run(row, length);
    assert_eq!(returned, Returned { number, place }, "{length} words, {row:?}");
    assert!(words.iter().all(|&word| word == BEFORE), "{length} words, {row:?}");
}

fn refused(row: &Row, number: u32, place: u32) {
    refused_over(row, 16, number, place);
}

fn with(change: impl FnOnce(&mut Row)) -> Row {
    let mut row = small();
    change(&mut row);
    row
}

#[test]
fn sharpness() {
    for sharpness in 0..=255 {
        let row = with(|row| row.frame.sharpness = sharpness);
        if sharpness <= 7 { accepted(&row) } else { refused(&row, 1, 0) }
    }
}

#[test]
fn depth() {
    for depth in 0..=255 {
        let row = with(|row| row.frame.bit_depth = depth);
        if matches!(depth, 8 | 10 | 12) { accepted(&row) } else { refused(&row, 2, 0) }
    }
}

#[test]
fn subsampling() {
    for a in 0..=255 {
        for b in [0, 1, 2, 255] {
            for (sub_x, sub_y) in [(a, b), (b, a)] {
                let row = with(|row| (row.frame.sub_x, row.frame.sub_y) = (sub_x, sub_y));
                if sub_x <= 1 && sub_y <= 1 { accepted(&row) } else { refused(&row, 3, 0) }
            }
        }
    }
}

/// Numbers of more than 32 bits. The lower 32 of the first two could pass.
const LARGE: [usize; 3] = [1 << 32, (1 << 32) + 8, usize::MAX - 7];

#[test]
fn frame_sizes() {
    for (mi_cols, mi_rows, base) in
        [(1, 1, 0), (8192, 1, 0), (1, 8192, 8184), (8192, 8192, 8184), (8191, 8191, 8184)]
    {
        accepted(&Row::largest(mi_cols, mi_rows, base));
    }
    for mi in [0, 8193, 16384, usize::MAX].into_iter().chain(LARGE) {
        refused(&with(|row| row.frame.mi_cols = mi), 4, 0);
        refused(&with(|row| row.frame.mi_rows = mi), 4, 0);
        refused(&with(|row| (row.frame.mi_cols, row.frame.mi_rows) = (mi, mi)), 4, 0);
    }
}

#[test]
fn bases() {
    for mi_rows in 1..=40 {
        for base in 0..=48 {
            if base % 8 == 0 && base < mi_rows {
                accepted(&Row::largest(3, mi_rows, base));
            } else {
                refused(&Row { base, ..Row::largest(3, mi_rows, 0) }, 5, 0);
            }
        }
    }
    for base in [8191, 8192, usize::MAX].into_iter().chain(LARGE) {
        refused(&Row { base, ..Row::largest(3, 8192, 8184) }, 5, 0);
    }
}

/// Every entry of the table counts, also those that no cell reads.
#[test]
fn levels() {
    for entry in 0..64 {
        for level in [64, 65, 128, 255] {
            refused(&with(|row| row.levels[entry] = level), 6, entry as u32);
            refused(&with(|row| row.levels[entry..].fill(level)), 6, entry as u32);
        }
        accepted(&with(|row| row.levels[entry] = 0));
    }
    accepted(&with(|row| row.levels = [63; 64]));
    accepted(&with(|row| row.levels = [0; 64]));
}

/// Cuts one of the six lists of mode info.
fn cut(row: &mut Row, list: usize, length: usize) {
    let blocks = &mut row.blocks;
    match list {
        0 => blocks.mi_sizes.truncate(length),
        1 => blocks.tx_sizes.truncate(length),
        2 => blocks.skips.truncate(length),
        3 => blocks.ref_frames.truncate(length),
        4 => blocks.y_modes.truncate(length),
        _ => blocks.segment_ids.truncate(length),
    }
}

#[test]
fn lists_too_short() {
    for (mi_cols, mi_rows, base) in [(1, 1, 0), (3, 10, 8), (5, 20, 0), (2, 24, 16)] {
        let whole = Row::largest(mi_cols, mi_rows, base);
        accepted(&whole);
        let cells = whole.cells();
        for length in [0, cells / 2, cells - 1] {
            for list in 0..6 {
                let mut short = whole.clone();
                cut(&mut short, list, length);
                refused_over(&short, cells, 7, 0);
                refused_over(&short, cells + 9, 7, 0);
                refused_over(&short, cells - 1, 7, 0);
            }
            refused_over(&whole, length, 7, 0);
            let mut longer = whole.clone();
            longer.blocks.extend([BAD; 8]);
            refused_over(&longer, length, 7, 0);
        }
    }
}

/// Blocks that are refused, each for one number that is too large.
fn bad_blocks() -> Vec<Block> {
    let good = small().blocks.at(0);
    let mut bad = Vec::new();
    bad.extend([13, 14, 16, 64, 255].map(|mi_size| Block { mi_size, ..good }));
    bad.extend([4, 5, 8, 255].map(|tx_size| Block { tx_size, ..good }));
    bad.extend([2, 3, 128, 255].map(|skip| Block { skip, ..good }));
    bad
}

/// Writes a block over that of a cell.
fn set(row: &mut Row, k: usize, block: Block) {
    row.blocks.mi_sizes[k] = block.mi_size;
    row.blocks.tx_sizes[k] = block.tx_size;
    row.blocks.skips[k] = block.skip;
}

#[test]
fn blocks() {
    let bad = bad_blocks();
    for k in 0..small().cells() {
        for &block in &bad {
            refused(&with(|row| set(row, k, block)), 8, k as u32);
            for &other in &bad {
                for behind in k + 1..small().cells() {
                    let two = with(|row| {
                        set(row, k, block);
                        set(row, behind, other);
                    });
                    refused(&two, 8, k as u32);
                }
            }
        }
    }
    let wide = Row::largest(8192, 8, 0);
    for k in [0, 255, 256, 8191, 8192, 65_535] {
        let mut row = wide.clone();
        set(&mut row, k, bad[0]);
        refused_over(&row, 65_536, 8, k as u32);
    }
}

#[test]
fn blocks_behind_the_cells() {
    for block in bad_blocks() {
        let mut row = small();
        row.blocks.extend([block; 3]);
        accepted(&row);
    }
}

/// References, modes and segments take any number.
#[test]
fn other_mode_info() {
    for number in [i32::MIN, -256, -1, 0, 3, 4, 7, 8, 14, 255, 256, i32::MAX] {
        accepted(&with(|row| row.blocks.ref_frames.fill(number)));
        accepted(&with(|row| row.blocks.y_modes.fill(number as u8)));
        accepted(&with(|row| row.blocks.segment_ids.fill(number as u8)));
    }
}

/// The faults of each number, in order.
fn faults() -> [Vec<fn(&mut Row)>; 8] {
    [
        vec![|row| row.frame.sharpness = 8],
        vec![|row| row.frame.bit_depth = 9],
        vec![|row| row.frame.sub_x = 2, |row| row.frame.sub_y = 2],
        vec![
            |row| row.frame.mi_cols = 0,
            |row| row.frame.mi_rows = 0,
            |row| row.frame.mi_cols = 8193,
            |row| row.frame.mi_rows = 8193,
        ],
        vec![|row| row.base = 1, |row| row.base = 16],
        vec![|row| row.levels[5] = 64],
        vec![|row| cut(row, 0, 5), |row| cut(row, 5, 0)],
        vec![|row| row.blocks.tx_sizes[4] = 4, |row| row.blocks.skips[4] = 2],
    ]
}

/// Of several refusals the lowest number is returned: every set of faults, each fault in every way.
#[test]
fn lowest_number() {
    let faults = faults();
    for set in 1u32..256 {
        let number = set.trailing_zeros() + 1;
        let place = match number {
            6 => 5,
            8 => 4,
            _ => 0,
        };
        for way in 0..4 {
            let row = with(|row| {
                for (k, ways) in faults.iter().enumerate() {
                    if set >> k & 1 == 1 {
                        ways[way % ways.len()](row);
                    }
                }
            });
            refused(&row, number, place);
        }
    }
}
