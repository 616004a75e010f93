//! The row into a list of records: those of the words that the plain row makes, and of the Rust's cells.

use differential::random::Random;
use differential::returned::Returned;
use differential::rows::Row;
use differential::say;
use springspade::{CellRecord, cell, row_records};

const ROWS: usize = 2_000;

/// A record that no row makes.
const BEFORE: CellRecord = CellRecord {
    width0: 255,
    width1: 255,
    height0: 255,
    height1: 255,
    tx: 255,
    uvtx: 255,
    skipped: 255,
    present: 255,
    level: 255,
};

/// What ours returns over so many records, and the records. One before them and one behind are left.
fn run(row: &Row, length: usize) -> (Returned, Vec<CellRecord>) {
    let mut records = vec![BEFORE; length + 2];
    let lent = &mut records[1..=length];
    let returned: Returned =
        row_records(&row.info(), &row.levels, &row.frame, row.base, lent).into();
    assert_eq!((records[0], records[length + 1]), (BEFORE, BEFORE), "{:?}", row.frame);
    (returned, records[1..=length].to_vec())
}

/// The row over words answers the same, and its words are those of the records.
fn same(row: &Row, length: usize) -> Returned {
    let (returned, records) = run(row, length);
    let mut words = vec![u32::MAX; length];
    assert_eq!(row.ours(&mut words), returned, "{:?}", row.frame);
    let cells = if returned.number == 0 { row.cells() } else { 0 };
    let expected = words[..cells].iter().map(|&word| CellRecord::from(cell(word)));
    assert!(records[..cells].iter().copied().eq(expected), "{:?}", row.frame);
    assert!(records[cells..].iter().all(|&record| record == BEFORE), "{:?}", row.frame);
    returned
}

#[test]
fn records_of_the_words() {
    let mut random = Random(91);
    for _ in 0..ROWS {
        let row = Row::random(&mut random);
        let behind = random.between(0, 3) as usize;
        assert_eq!(same(&row, row.cells() + behind).number, 0, "{:?}", row.frame);
    }
    say(&format!("{ROWS} rows into records answer as those into words"));
}

#[cfg(oracle)]
#[test]
fn records_equal_the_rust() {
    let mut random = Random(92);
    for _ in 0..ROWS {
        let row = Row::random(&mut random);
        let (_, records) = run(&row, row.cells());
        let expected = differential::rust::row(&row).into_iter().map(CellRecord::from);
        assert!(records.into_iter().eq(expected), "{:?}", row.frame);
    }
    say(&format!("{ROWS} rows into records equal the Rust's cells"));
}

/// The largest row has 65,536 cells; a longer list is taken, and left behind them.
#[test]
fn largest_row() {
    let row = Row::largest(8192, 8192, 8184);
    assert_eq!(same(&row, 65_536).number, 0);
    assert_eq!(same(&row, 70_000).number, 0);
    assert_eq!(same(&row, 65_535), Returned { number: 7, place: 0 });
}

/// What is changed, and the number and place of the refusal.
type Change = (fn(&mut Row), u32, u32);

#[test]
fn refusals() {
    let changes: [Change; 9] = [
        (|row| row.frame.sharpness = 8, 1, 0),
        (|row| row.frame.bit_depth = 9, 2, 0),
        (|row| row.frame.sub_x = 2, 3, 0),
        (|row| row.frame.mi_cols = 0, 4, 0),
        (|row| row.base = 4, 5, 0),
        (|row| row.levels[5] = 64, 6, 5),
        (|row| row.blocks.skips.truncate(5), 7, 0),
        (|row| row.blocks.mi_sizes[4] = 13, 8, 4),
        (|row| row.blocks.tx_sizes[2] = 4, 8, 2),
    ];
    for (change, number, place) in changes {
        let mut row = Row::largest(3, 10, 8);
        change(&mut row);
        assert_eq!(same(&row, 16), Returned { number, place }, "{row:?}");
    }
}
