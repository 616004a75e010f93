//! Ours over the records of passes.bin, read by the layout that vectors.rs gives.

use differential::passes::Pass;
use differential::returned::Returned;
use springspade::{Frame, Superblock, Window};
use std::collections::BTreeMap;

const RECORD: usize = 2728;

/// Numbers of so many bytes each, from here on, the lowest byte first.
fn numbers(record: &[u8], start: usize, bytes: usize, count: usize) -> Vec<usize> {
    let parts = record[start..].chunks(bytes).take(count);
    parts.map(|part| part.iter().rev().fold(0, |n, &byte| n << 8 | usize::from(byte))).collect()
}

fn samples(record: &[u8], start: usize, count: usize) -> Vec<u16> {
    numbers(record, start, 2, count).iter().map(|&sample| sample as u16).collect()
}

/// The pass of a record, what it returns, and the samples after it.
fn read(record: &[u8]) -> (Pass, Returned, Vec<u16>) {
    let &[sharpness, depth, sub_x, sub_y, plane, pass, number, cells, ..] = record else {
        panic!("{record:?}");
    };
    let [mi_cols, mi_rows, row, col] = numbers(record, 8, 2, 4)[..] else { unreachable!() };
    let [width, height, stride, y_origin, lent, place] = numbers(record, 16, 4, 6)[..] else {
        unreachable!()
    };
    let cells = numbers(record, 40, 4, cells.into());
    let pass = Pass {
        frame: Frame { sharpness, bit_depth: depth, sub_x, sub_y, mi_cols, mi_rows },
        at: Superblock { mi_row: row, mi_col: col, plane, pass },
        cells: cells.iter().map(|&word| word as u32).collect(),
        window: Window { width, height, stride, y_origin },
        samples: samples(record, 168, lent),
    };
    let returned = Returned { number: number.into(), place: place as u32 };
    (pass, returned, samples(record, 1448, lent))
}

#[test]
fn records() {
    let file = concat!(env!("CARGO_MANIFEST_DIR"), "/../../crates/vectors/data/passes.bin");
    let bytes = std::fs::read(file).unwrap_or_else(|e| panic!("{file}: {e}"));
    assert_eq!(bytes.len() % RECORD, 0);
    let mut returns = BTreeMap::<u32, usize>::new();
    for (k, record) in bytes.chunks(RECORD).enumerate() {
        let (pass, returned, after) = read(record);
        let ours = pass.ours();
        assert_eq!(ours.0, returned, "record {k}, {}", pass.call());
        assert!(ours.1 == after, "record {k}, {}", pass.difference(&ours.1, &after));
        *returns.entry(returned.number).or_default() += 1;
    }
    let numbers: Vec<u32> = returns.keys().copied().collect();
    assert_eq!(numbers, [0, 1, 2, 3, 4, 5, 7, 9, 10, 11, 12, 13, 14], "{returns:?}");
}
