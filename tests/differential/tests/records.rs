//! The forms by records answer as the plain ones do.

use differential::passes::Pass;
use differential::passes::small::{small, with};
use differential::random::Random;
use differential::returned::Returned;
use differential::say;
use springspade::{CellRecord, Window};

const PASSES: usize = 12_000;

/// Number, place and samples of a pass over a window that holds its samples are those of the plain pass.
fn same_by_window(pass: &Pass) -> bool {
    let (returned, after) = pass.ours();
    let (by_window, after_window) = pass.ours_by_window();
    assert_eq!(by_window, returned, "{}", pass.call());
    assert!(after == after_window, "{}", pass.difference(&after_window, &after));
    returned.number == 0
}

#[test]
fn window_that_holds_its_samples() {
    let mut random = Random(81);
    let accepted = (0..PASSES).filter(|_| same_by_window(&Pass::random(&mut random))).count();
    assert!(accepted >= PASSES / 2, "{accepted} of {PASSES} passes are accepted");
    say(&format!("{PASSES} passes by window record answer as the plain ones, {accepted} accepted"));
}

#[test]
fn window_refusals() {
    let refused = [
        with(|pass| pass.frame.sharpness = 8),
        with(|pass| pass.frame.bit_depth = 9),
        with(|pass| pass.frame.sub_y = 2),
        with(|pass| pass.frame.mi_cols = 8193),
        with(|pass| pass.at.mi_row = 1),
        with(|pass| pass.cells.clear()),
        with(|pass| pass.at.plane = 3),
        with(|pass| pass.at.mi_col = 1),
        with(|pass| pass.cells[0] |= 1),
        with(|pass| pass.window.stride = pass.window.width - 1),
        with(|pass| pass.samples[0] = 4096),
    ];
    for pass in &refused {
        assert!(!same_by_window(pass), "{}", pass.call());
    }
    let numbers: Vec<u32> = refused.iter().map(|pass| pass.ours().0.number).collect();
    assert_eq!(numbers, [1, 2, 3, 4, 5, 7, 9, 10, 11, 12, 13]);
    let huge = Window { width: usize::MAX, height: usize::MAX, stride: usize::MAX, y_origin: 0 };
    assert!(!same_by_window(&Pass { window: huge, ..small() }));
}

/// Number, place and samples of a pass over records are those of the pass over the words.
fn same_by_records(pass: &Pass) -> bool {
    let (returned, after) = pass.ours();
    let (by_records, after_records) = pass.ours_by_records(&pass.records());
    assert_eq!(by_records, returned, "{}", pass.call());
    assert!(after == after_records, "{}", pass.difference(&after_records, &after));
    returned.number == 0
}

#[test]
fn cells_as_records() {
    let mut random = Random(82);
    let accepted = (0..PASSES).filter(|_| same_by_records(&Pass::random(&mut random))).count();
    assert!(accepted >= PASSES / 2, "{accepted} of {PASSES} passes are accepted");
    say(&format!("{PASSES} passes by cell records answer as those by words, {accepted} accepted"));
}

/// Where the Rust is at hand, both forms are held to it as well.
#[cfg(oracle)]
#[test]
fn forms_equal_the_rust() {
    let mut random = Random(83);
    let mut compared = 0;
    for _ in 0..PASSES {
        let pass = Pass::random(&mut random);
        let Some(expected) = differential::rust::pass(&pass) else { continue };
        for (returned, after) in [pass.ours_by_window(), pass.ours_by_records(&pass.records())] {
            assert_eq!(returned.number, 0, "{}", pass.call());
            assert!(after == expected, "{}", pass.difference(&after, &expected));
        }
        compared += 1;
    }
    assert!(compared >= PASSES / 2, "{compared} of {PASSES} passes are compared");
    say(&format!("{compared} passes by window record and by cell records equal the Rust's"));
}

type Field = fn(&mut CellRecord) -> &mut u8;

/// Each field of a record, and the greatest number that its bits hold.
const FIELDS: [(Field, u8); 9] = [
    (|record| &mut record.width0, 3),
    (|record| &mut record.width1, 3),
    (|record| &mut record.height0, 3),
    (|record| &mut record.height1, 3),
    (|record| &mut record.tx, 3),
    (|record| &mut record.uvtx, 3),
    (|record| &mut record.skipped, 1),
    (|record| &mut record.present, 1),
    (|record| &mut record.level, 63),
];

/// At its limit a field is taken; past it the pass is refused with 11 and the cell, and writes nothing.
#[test]
fn field_limits() {
    let pass = small();
    let count = pass.row_cells();
    for (field, most) in FIELDS {
        for k in [0, count / 2, count - 1] {
            for value in [most, most + 1, 255] {
                let mut records = pass.records();
                records[k].present = 1;
                *field(&mut records[k]) = value;
                let (returned, after) = pass.ours_by_records(&records);
                let place = k as u32;
                let refused = Returned { number: 11, place };
                assert_eq!(returned == refused, value > most, "{value}, {}", pass.call());
                assert!(value <= most || after == pass.samples, "{}", pass.call());
            }
        }
    }
}

/// Of two the first cell is named, a level while absent counts, and records behind the row do not.
#[test]
fn record_refusals() {
    let pass = small();
    let count = pass.row_cells();
    let mut records = pass.records();
    records.push(CellRecord { level: 255, ..CellRecord::default() });
    assert_eq!(pass.ours_by_records(&records), pass.ours());
    records[count - 1].skipped = 2;
    records[1] = CellRecord { level: 1, ..CellRecord::default() };
    let (returned, after) = pass.ours_by_records(&records);
    assert_eq!(returned, Returned { number: 11, place: 1 });
    assert_eq!(after, pass.samples);
    let (short, _) = pass.ours_by_records(&pass.records()[..count - 1]);
    assert_eq!(short, Returned { number: 7, place: 0 });
}

/// A list of records longer than any row is taken as the row's first cells.
#[test]
fn more_records_than_a_row_has() {
    let pass = small();
    let mut records = pass.records();
    records.resize(70_000, CellRecord { tx: 255, ..CellRecord::default() });
    assert_eq!(pass.ours_by_records(&records), pass.ours());
}
