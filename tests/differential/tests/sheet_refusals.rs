//! Refusals of a sheet: what just passes, what just does not. Which of several comes first is in sheet_order.rs.

use differential::positions::levelless;
use differential::sheets::small::{accepted, refused, small, with};
use differential::sheets::{HEADER, Sheet};

/// A sheet of a frame of so many cells, all with level.
fn in_frame(mi_cols: usize, mi_rows: usize, row_over_8: usize, col_over_8: usize) -> Sheet {
    let mut sheet = Sheet { mi_cols, mi_rows, row_over_8, col_over_8, ..small() };
    let good = small().words;
    sheet.words = (0..sheet.row_cells()).map(|k| good[k % good.len()]).collect();
    sheet
}

#[test]
fn small_sheet_has_runs() {
    accepted(&small().bytes());
    assert!(springspade::sheet(&small().bytes()).lines().count() > 3);
}

/// 7 before any other test, whatever the bytes are.
#[test]
fn under_8_bytes() {
    let sheets = [small().bytes(), vec![0; 32], vec![0xff; 32]];
    for bytes in sheets {
        for length in 0..HEADER {
            refused(&bytes[..length], 7, 0);
        }
    }
    // The last of eight bytes has the spare bits; then 4 comes from no columns.
    refused(&[0, 0, 0, 0, 0, 0, 0, 1], 17, 0);
    refused(&[0; 8], 4, 0);
    refused(&[0xff; 8], 17, 0);
}

/// Cut anywhere. What follows in memory is not read.
#[test]
fn cut() {
    for sheet in [small(), in_frame(1, 1, 0, 0), in_frame(3, 24, 2, 0), in_frame(16, 9, 0, 1)] {
        let bytes = sheet.bytes();
        for length in 0..bytes.len() {
            refused(&bytes[..length], 7, 0);
        }
        accepted(&bytes);
    }
    let bytes = in_frame(1024, 8192, 1023, 127).bytes();
    accepted(&bytes);
    for cut in [1, 2, 3, 4, 5, 4096, 32_768] {
        refused(&bytes[..bytes.len() - cut], 7, 0);
    }
}

#[test]
fn spare_bits() {
    for spare in 1..64 {
        refused(&with(|sheet| sheet.spare = spare).bytes(), 17, 0);
    }
}

/// 17 above 1,024 columns, also where they are above 8,192.
#[test]
fn columns_of_a_frame() {
    for mi_cols in [1, 9, 1023, 1024] {
        accepted(&in_frame(mi_cols, 10, 1, 0).bytes());
    }
    for mi_cols in [1025, 1026, 2047, 2048, 8191, 8192, 8193, 16383] {
        refused(&with(|sheet| sheet.mi_cols = mi_cols).bytes(), 17, 0);
    }
    refused(&in_frame(1025, 10, 1, 0).bytes(), 17, 0);
    refused(&with(|sheet| sheet.mi_cols = 0).bytes(), 4, 0);
}

#[test]
fn rows_of_a_frame() {
    for (mi_rows, row_over_8) in [(1, 0), (8191, 1023), (8192, 1023), (8192, 0), (8185, 1023)] {
        accepted(&in_frame(9, mi_rows, row_over_8, 1).bytes());
    }
    for mi_rows in [0, 8193, 8194, 16383] {
        refused(&with(|sheet| sheet.mi_rows = mi_rows).bytes(), 4, 0);
    }
}

#[test]
fn depth_codes() {
    for depth_code in 0..3 {
        accepted(&with(|sheet| sheet.depth_code = depth_code).bytes());
    }
    refused(&with(|sheet| sheet.depth_code = 3).bytes(), 2, 0);
}

/// 5 for the row, 10 for the column.
#[test]
fn rows_and_columns() {
    for mi in 1..=40 {
        for first in 0..=6 {
            let [rows, columns] = [in_frame(3, mi, 0, 0), in_frame(mi, 3, 0, 0)];
            if 8 * first < mi {
                accepted(&in_frame(3, mi, first, 0).bytes());
                accepted(&in_frame(mi, 3, 0, first).bytes());
            } else {
                refused(&Sheet { row_over_8: first, ..rows }.bytes(), 5, 0);
                refused(&Sheet { col_over_8: first, ..columns }.bytes(), 10, 0);
            }
        }
    }
    for first in [2, 1023] {
        refused(&with(|sheet| sheet.row_over_8 = first).bytes(), 5, 0);
        refused(&with(|sheet| sheet.col_over_8 = first).bytes(), 10, 0);
    }
    refused(&Sheet { mi_rows: 8184, row_over_8: 1023, ..small() }.bytes(), 5, 0);
    refused(&Sheet { col_over_8: 127, ..in_frame(1016, 8, 0, 0) }.bytes(), 10, 0);
    accepted(&in_frame(1017, 8, 0, 127).bytes());
}

/// A sheet's pass is one bit, so 9 is for its plane alone.
#[test]
fn planes_and_passes() {
    for pass in [0, 1] {
        for plane in 0..3 {
            accepted(&with(|sheet| (sheet.plane, sheet.pass) = (plane, pass)).bytes());
        }
        refused(&with(|sheet| (sheet.plane, sheet.pass) = (3, pass)).bytes(), 9, 0);
    }
}

/// Sharpness and subsampling take every number of their bits.
#[test]
fn never_refused() {
    for sharpness in 0..8 {
        for (sub_x, sub_y) in [(0, 0), (0, 1), (1, 0), (1, 1)] {
            accepted(&Sheet { sharpness, sub_x, sub_y, ..small() }.bytes());
        }
    }
}

/// Words that are refused: a zero bit is set, or a bit of the level without that of its presence.
fn bad_words(word: u32) -> impl Iterator<Item = u32> {
    let levels = (12..18).map(move |bit| word & !0x7ffff | 1 << bit);
    let all = [word | 0xfff, word & !0x7ffff | 0x3f000, u32::MAX];
    (0..12).map(move |bit| word | 1 << bit).chain(levels).chain(all)
}

/// The whole row counts, also what no position of the superblock reads.
#[test]
fn words() {
    for k in 0..22 {
        for bad in bad_words(small().words[k]) {
            refused(&with(|sheet| sheet.words[k] = bad).bytes(), 11, k as u32);
            refused(&with(|sheet| sheet.words[k..].fill(bad)).bytes(), 11, k as u32);
        }
    }
    let mut wide = in_frame(1024, 16, 1, 64);
    for k in [8191, 8190, 1024, 1023, 256, 255, 0] {
        wide.words[k] |= 1;
        refused(&wide.bytes(), 11, k as u32);
    }
}

#[test]
fn words_behind_the_row() {
    for bad in bad_words(small().words[0]) {
        accepted(&with(|sheet| sheet.words.extend([bad; 3])).bytes());
    }
}

/// Each cell, and each from which on all are without level.
fn levelless_cells(sheet: &Sheet) {
    for k in 0..sheet.words.len() {
        for end in [k + 1, sheet.words.len()] {
            let mut sheet = sheet.clone();
            sheet.words[k..end].iter_mut().for_each(|word| *word &= !0x7ffff);
            match levelless(&sheet.as_pass()) {
                Some(place) => refused(&sheet.bytes(), 14, place),
                None => accepted(&sheet.bytes()),
            }
        }
    }
}

/// A cell without level, read or not. A place is by 64 also where an edge has 32 positions.
#[test]
fn cells_without_level() {
    for k in 0..24 {
        for (row_over_8, col_over_8) in [(0, 0), (0, 1), (1, 0), (1, 1)] {
            let mut sheet = in_frame(11, 10, row_over_8, col_over_8);
            (sheet.sub_x, sheet.sub_y, sheet.pass) = (k & 1, k >> 1 & 1, k >> 2 & 1);
            sheet.plane = k / 8;
            levelless_cells(&sheet);
        }
    }
}

/// Places worked out by hand, of 8 by 8 cells with transforms 0 in 4:2:0: cell 10 is the last of the first
/// row and stands at luma column 80, plane column 40, position 8 of the superblock at column 64.
#[test]
fn places_without_level() {
    let word = 0x0004_0000 | 20 << 12;
    let without = |sheet: &Sheet, k: usize, place: u32| {
        let mut sheet = sheet.clone();
        sheet.words.fill(word);
        sheet.words[k] = 0;
        refused(&sheet.bytes(), 14, place);
    };
    without(&small(), 8, 0);
    without(&small(), 10, 8);
    let square = in_frame(8, 8, 0, 0);
    without(&square, 6 * 8 + 6, 6 * 64 + 24);
    without(&Sheet { pass: 0, ..square.clone() }, 6 * 8 + 6, 6 * 64 + 24);
    without(&Sheet { plane: 0, ..square.clone() }, 6 * 8 + 7, 12 * 64 + 56);
    without(&Sheet { plane: 0, pass: 0, ..square }, 6 * 8 + 7, 14 * 64 + 48);
}

/// A level of 0 that is present is not one that is absent.
#[test]
fn level_0() {
    let sheet = with(|sheet| sheet.words.iter_mut().for_each(|word| *word &= !0x3f000));
    accepted(&sheet.bytes());
    assert_eq!(springspade::sheet(&sheet.bytes()), "pass 1 plane 2 row 8 col 8\n");
}
