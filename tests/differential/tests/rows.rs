//! Ours against the cells that the Rust resolves for a superblock row.
#![cfg(oracle)]

use differential::cells::unpacked;
use differential::returned::Returned;
use differential::rows::{BAD, Block, MODES, REFERENCES, Row, SEGMENTS};
use differential::{many::count, random::Random, rust, say};
use springspade::{Cell, Frame, cell};
use std::array;

/// A word that no row makes.
const BEFORE: u32 = 0xffff_ffff;

/// Ours cell by cell, read here and by the library; words behind the cells are left. Gives the cells.
fn compare(row: &Row, behind: usize) -> Vec<Cell> {
    let expected = rust::row(row);
    let (frame, cells) = (&row.frame, row.cells());
    assert_eq!(expected.len(), cells);
    // A word before the list and one behind it, which are not its own.
    let mut words = vec![BEFORE; cells + behind + 2];
    let returned = row.ours(&mut words[1..=cells + behind]);
    assert_eq!(returned, Returned { number: 0, place: 0 }, "{frame:?}, base {}", row.base);
    for (k, (&word, &expected)) in words[1..].iter().zip(&expected).enumerate() {
        let at = || format!("cell {k}, {:?}, {frame:?}", row.blocks.at(k));
        assert_eq!(unpacked(word), (expected, 0), "{}", at());
        assert_eq!(cell(word), expected, "{}", at());
    }
    let mut left = words[..1].iter().chain(&words[1 + cells..]);
    assert!(left.all(|&word| word == BEFORE), "{frame:?}, base {}", row.base);
    expected
}

/// Eight rows of these blocks at each subsampling, under two tables in which each level stands once.
fn compare_all(blocks: &[Block]) -> usize {
    assert_eq!(blocks.len() % 8, 0);
    let tables: [[u8; 64]; 2] = [array::from_fn(|k| k as u8), array::from_fn(|k| 63 - k as u8)];
    for (sub_x, sub_y) in [(0, 0), (0, 1), (1, 0), (1, 1)] {
        let mi_cols = blocks.len() / 8;
        let frame = Frame { sharpness: 0, bit_depth: 8, sub_x, sub_y, mi_cols, mi_rows: 8 };
        for levels in tables {
            let blocks = blocks.iter().copied().collect();
            compare(&Row { frame, base: 0, levels, blocks }, 1);
        }
    }
    8 * blocks.len()
}

/// Every size, transform and skip, with references, modes and segments on both sides of their limits.
#[test]
fn every_size_equal() {
    let mut blocks = Vec::new();
    for mi_size in 0..=12 {
        for tx_size in 0..=3 {
            for skip in 0..=1 {
                for ref_frame in REFERENCES {
                    for y_mode in MODES {
                        for segment_id in SEGMENTS {
                            let block =
                                Block { mi_size, tx_size, skip, ref_frame, y_mode, segment_id };
                            blocks.push(block);
                        }
                    }
                }
            }
        }
    }
    let cells = compare_all(&blocks);
    say(&format!("{cells} cells of every size and transform equal the Rust's"));
}

/// Every mode and segment.
#[test]
fn every_level_equal() {
    let mut cells = 0;
    for ref_frame in REFERENCES {
        let block = |k: u16| {
            let [y_mode, segment_id] = k.to_be_bytes();
            Block { mi_size: 3, tx_size: 1, skip: 1, ref_frame, y_mode, segment_id }
        };
        cells += compare_all(&(0..=u16::MAX).map(block).collect::<Vec<_>>());
    }
    say(&format!("{cells} cells of every mode and segment equal the Rust's"));
}

/// Rows that end inside their superblocks; cells, of them with a level, and skipped.
type Counts = [usize; 4];

#[test]
fn rows_equal() {
    let rows = count("SPRINGSPADE_ROWS", 20_000);
    let half = rows / 2;
    let (a, b) = std::thread::scope(|scope| {
        let a = scope.spawn(move || compare_random(half, 8));
        let b = scope.spawn(move || compare_random(rows - half, 9));
        (a.join().unwrap(), b.join().unwrap())
    });
    let [cut, cells, present, skipped] = array::from_fn(|k| a[k] + b[k]);
    assert!(cut >= rows / 4, "{cut} of {rows} rows end inside their superblocks");
    assert!([present, cells - present, skipped, cells - skipped].iter().all(|&n| n >= cells / 8));
    let cells = format!("cells {cells}, with a level {present}, skipped {skipped}");
    say(&format!("{rows} rows equal the Rust's; fewer than 8 high {cut}, {cells}"));
}

fn compare_random(rows: usize, seed: u64) -> Counts {
    let mut random = Random(seed);
    let mut counts = Counts::default();
    for _ in 0..rows {
        let mut row = Row::random(&mut random);
        // Behind the cells of some stands mode info that no row takes.
        row.blocks.extend((0..random.between(0, 2)).map(|_| BAD));
        let cells = compare(&row, random.between(0, 2) as usize);
        counts[0] += usize::from(row.frame.mi_rows - row.base < 8);
        counts[1] += cells.len();
        counts[2] += cells.iter().filter(|cell| cell.present).count();
        counts[3] += cells.iter().filter(|cell| cell.skipped).count();
    }
    counts
}
