//! Which of several refusals of a sheet comes first: 7 for a cut header, 17, then the lowest number.

use differential::positions::levelless;
use differential::random::Random;
use differential::sheets::Sheet;
use differential::sheets::small::{refused, small, with};

/// Each pair that a reader could take in the other order.
#[test]
fn first_of_two() {
    // Without cells.
    let header = |change: fn(&mut Sheet)| {
        let mut sheet = with(change);
        sheet.words.clear();
        sheet.bytes()
    };
    refused(&header(|sheet| sheet.spare = 1), 17, 0);
    refused(&header(|sheet| (sheet.mi_cols, sheet.depth_code) = (2000, 3)), 17, 0);
    refused(&header(|sheet| (sheet.mi_cols, sheet.depth_code) = (0, 3)), 2, 0);
    refused(&header(|sheet| (sheet.mi_cols, sheet.spare) = (0, 1)), 17, 0);
    refused(&header(|sheet| sheet.plane = 3), 7, 0);
    refused(&header(|sheet| sheet.mi_cols = 8193), 17, 0);
    refused(&header(|sheet| (sheet.mi_cols, sheet.mi_rows) = (16383, 0)), 17, 0);
    refused(&header(|sheet| (sheet.mi_rows, sheet.row_over_8) = (8193, 1023)), 4, 0);
    refused(&header(|sheet| (sheet.row_over_8, sheet.col_over_8) = (2, 2)), 5, 0);
    refused(&header(|sheet| sheet.col_over_8 = 2), 7, 0);
    refused(&with(|sheet| (sheet.plane, sheet.col_over_8) = (3, 2)).bytes(), 9, 0);
    refused(&with(|sheet| (sheet.plane, sheet.words[4]) = (3, 1)).bytes(), 9, 0);
    refused(&with(|sheet| (sheet.col_over_8, sheet.words[4]) = (2, 1)).bytes(), 10, 0);
    // Cells without level that are read, and behind them a bad word.
    let mut both = small();
    both.words.fill(0);
    both.words[21] = 1;
    refused(&both.bytes(), 11, 21);
}

type Fault = fn(&mut Sheet);

/// The faults that a sheet can have, in the order of its tests. Those of one test are made after those of
/// the tests behind it; where one takes another away, the one that stays is tested before.
const FAULTS: [(u32, &[Fault]); 9] = [
    (17, &[|sheet| sheet.spare = 32, |sheet| sheet.mi_cols = 1025, |sheet| sheet.mi_cols = 9000]),
    (2, &[|sheet| sheet.depth_code = 3]),
    (
        4,
        &[
            |sheet| sheet.mi_cols = 0,
            |sheet| sheet.mi_rows = 0,
            |sheet| sheet.mi_rows = 8193,
            |sheet| sheet.mi_rows = 16383,
        ],
    ),
    (5, &[|sheet| sheet.row_over_8 = 2, |sheet| sheet.row_over_8 = 1023]),
    (7, &[|sheet| sheet.words.truncate(21), |sheet| sheet.words.clear()]),
    (9, &[|sheet| sheet.plane = 3]),
    (10, &[|sheet| sheet.col_over_8 = 2, |sheet| sheet.col_over_8 = 1023]),
    (11, &[|sheet| sheet.words[5] |= 1, |sheet| sheet.words[5] = 0x1100_1000]),
    (14, &[|sheet| sheet.words.iter_mut().for_each(|word| *word &= !0x7ffff)]),
];

/// Of several refusals the one that is tested first is returned: every set of faults, in several ways.
#[test]
fn first_of_all() {
    let absent = levelless(&with(FAULTS[8].1[0]).as_pass()).unwrap();
    let mut random = Random(46);
    for set in 1u32..1 << FAULTS.len() {
        let (number, _) = FAULTS[set.trailing_zeros() as usize];
        let place = match number {
            11 => 5,
            14 => absent,
            _ => 0,
        };
        for _ in 0..8 {
            let sheet = with(|sheet| {
                for (k, (_, ways)) in FAULTS.iter().enumerate().rev() {
                    if set >> k & 1 == 1 {
                        random.one_of(ways)(sheet);
                    }
                }
            });
            refused(&sheet.bytes(), number, place);
            refused(&sheet.bytes()[..random.between(0, 7) as usize], 7, 0);
        }
    }
}
