//! Refusals of the pass: what just passes, what just does not, and which of several comes first.
//! Those of its window are in pass_windows.rs.

use differential::passes::Pass;
use differential::passes::small::{LARGE, accepted, refused, small, with};
use differential::positions::{decided, filtered, levelless};
use differential::random::Random;
use springspade::{Frame, Superblock, Window};

#[test]
fn small_pass_filters() {
    accepted(&small());
    assert_ne!(filtered(&small()), small().samples);
}

#[test]
fn sharpness() {
    for sharpness in 0..=255 {
        let pass = with(|pass| pass.frame.sharpness = sharpness);
        if sharpness <= 7 { accepted(&pass) } else { refused(&pass, 1, 0) }
    }
}

#[test]
fn depth() {
    for depth in 0..=255 {
        let pass = with(|pass| pass.frame.bit_depth = depth);
        if matches!(depth, 8 | 10 | 12) { accepted(&pass) } else { refused(&pass, 2, 0) }
    }
}

/// Plane 0 is not subsampled, and yet the flags are tested.
#[test]
fn subsampling() {
    for plane in 0..=2 {
        for a in 0..=255 {
            for b in [0, 1, 2, 255] {
                for (sub_x, sub_y) in [(a, b), (b, a)] {
                    let pass = with(|pass| {
                        pass.at.plane = plane;
                        (pass.frame.sub_x, pass.frame.sub_y) = (sub_x, sub_y);
                    });
                    if sub_x <= 1 && sub_y <= 1 { accepted(&pass) } else { refused(&pass, 3, 0) }
                }
            }
        }
    }
}

/// A pass in a frame of so many cells, over a window of 16 by 12 samples.
fn in_frame(mi_cols: usize, mi_rows: usize, row: usize, col: usize) -> Pass {
    let frame = Frame { mi_cols, mi_rows, ..small().frame };
    let at = Superblock { mi_row: row, mi_col: col, plane: 1, pass: 1 };
    let window = Window { width: 16, height: 12, stride: 16, y_origin: 4 * row };
    Pass::accepted(&mut Random(29), frame, at, window)
}

#[test]
fn frame_sizes() {
    for (mi_cols, mi_rows, row, col) in [
        (1, 1, 0, 0),
        (8192, 1, 0, 8184),
        (1, 8192, 8184, 0),
        (8191, 8191, 8184, 8184),
        (8192, 8192, 8184, 0),
    ] {
        accepted(&in_frame(mi_cols, mi_rows, row, col));
    }
    for mi in [0, 8193, 16384, usize::MAX].into_iter().chain(LARGE) {
        refused(&with(|pass| pass.frame.mi_cols = mi), 4, 0);
        refused(&with(|pass| pass.frame.mi_rows = mi), 4, 0);
        refused(&with(|pass| (pass.frame.mi_cols, pass.frame.mi_rows) = (mi, mi)), 4, 0);
    }
}

/// 5 for the row, 10 for the column.
#[test]
fn rows_and_columns() {
    for mi in 1..=40 {
        for first in 0..=48 {
            let [rows, columns] = [in_frame(3, mi, 0, 0), in_frame(mi, 3, 0, 0)];
            if first % 8 == 0 && first < mi {
                accepted(&in_frame(3, mi, first, 0));
                accepted(&in_frame(mi, 3, 0, first));
            } else {
                refused(&Pass { at: Superblock { mi_row: first, ..rows.at }, ..rows }, 5, 0);
                refused(&Pass { at: Superblock { mi_col: first, ..columns.at }, ..columns }, 10, 0);
            }
        }
    }
    for first in [8191, 8192, usize::MAX].into_iter().chain(LARGE) {
        refused(&with(|pass| pass.at.mi_row = first), 5, 0);
        refused(&with(|pass| pass.at.mi_col = first), 10, 0);
    }
}

#[test]
fn cells_too_few() {
    for (mi_cols, mi_rows, row) in [(1, 1, 0), (3, 10, 8), (5, 20, 0), (2, 24, 16), (8192, 8, 0)] {
        let mut pass = in_frame(mi_cols, mi_rows, row, 0);
        let cells = pass.row_cells();
        pass.cells.truncate(cells);
        accepted(&pass);
        for count in [cells - 1, cells / 2, 0] {
            pass.cells.truncate(count);
            refused(&pass, 7, 0);
        }
    }
}

#[test]
fn planes_and_passes() {
    for a in 0..=255 {
        for b in [0, 1, 2, 3, 255] {
            for (plane, number) in [(a, b), (b, a)] {
                let pass = with(|pass| (pass.at.plane, pass.at.pass) = (plane, number));
                if plane <= 2 && number <= 1 { accepted(&pass) } else { refused(&pass, 9, 0) }
            }
        }
    }
}

/// Words that are refused: a zero bit is set, or a bit of the level without that of its presence.
fn bad_words(word: u32) -> impl Iterator<Item = u32> {
    let levels = (12..18).map(move |bit| word & !0x7ffff | 1 << bit);
    let all = [word | 0xfff, word & !0x7ffff | 0x3f000, u32::MAX];
    (0..12).map(move |bit| word | 1 << bit).chain(levels).chain(all)
}

/// The whole row counts, also what no position of the superblock reads.
#[test]
fn words() {
    let good = small();
    for k in 0..22 {
        for bad in bad_words(good.cells[k]) {
            refused(&with(|pass| pass.cells[k] = bad), 11, k as u32);
            refused(&with(|pass| pass.cells[k..].fill(bad)), 11, k as u32);
        }
        let both = |k: usize| with(|pass| (pass.cells[k], pass.cells[21]) = (0x1000, 1));
        refused(&both(k), 11, k as u32);
    }
    let mut wide = in_frame(8192, 8, 0, 4096);
    for k in [65_535, 8192, 8191, 256, 255] {
        wide.cells[k] |= 1;
        refused(&wide, 11, k as u32);
    }
}

#[test]
fn words_behind_the_cells() {
    for bad in bad_words(small().cells[0]) {
        accepted(&with(|pass| pass.cells.extend([bad; 3])));
    }
}

/// Any twenty bits are a cell, if the level is 0 where it is absent. No position reads the first.
#[test]
fn words_accepted() {
    for present in [0, 1 << 18, 1 << 18 | 1 << 12, 1 << 18 | 63 << 12] {
        for fields in 0..=0x1fff {
            let word = fields << 19 | present;
            accepted(&with(|pass| pass.cells[0] = word));
            if present != 0 && fields % 16 == 0 {
                accepted(&with(|pass| pass.cells.fill(word)));
            }
        }
    }
}

/// Each cell, and each from which on all are without level.
fn levelless_cells(pass: &Pass) {
    for k in 0..pass.row_cells() {
        for end in [k + 1, pass.row_cells()] {
            let mut pass = pass.clone();
            pass.cells[k..end].iter_mut().for_each(|word| *word &= !0x7ffff);
            match levelless(&pass) {
                Some(place) => refused(&pass, 14, place),
                None => accepted(&pass),
            }
        }
    }
}

/// A cell without level, read or not, also where the window has none of its samples.
#[test]
fn cells_without_level() {
    let windows = [
        small().window,
        Window { width: 1, height: 1, stride: 1, y_origin: 0 },
        Window { width: 20, height: 9, stride: 21, y_origin: 65_000 },
    ];
    let mut random = Random(30);
    for window in windows {
        for k in 0..48 {
            let frame = Frame { sub_x: k & 1, sub_y: k >> 1 & 1, ..small().frame };
            let at = Superblock { plane: k >> 2 & 3, pass: k >> 4 & 1, ..small().at };
            let at = Superblock { plane: at.plane % 3, mi_col: random.one_of(&[0, 8]), ..at };
            levelless_cells(&Pass::accepted(&mut random, frame, at, window));
        }
    }
}

/// A level of 0 that is present is not one that is absent.
#[test]
fn level_0() {
    let pass = with(|pass| pass.cells.iter_mut().for_each(|word| *word &= !0x3f000));
    assert!(!decided(&pass).is_empty());
    accepted(&pass);
    assert_eq!(pass.ours().1, pass.samples);
}

/// The numbers of the pass's refusals.
const NUMBERS: [u32; 12] = [1, 2, 3, 4, 5, 7, 9, 10, 11, 12, 13, 14];

/// The faults of each number. Those of one number are made after those of the numbers behind it.
/// A fault may take another away: no row is too large in a frame of 8,193 rows, and without a column
/// there is no bad sample. Then the one that stays has the lower number.
fn faults() -> [Vec<fn(&mut Pass)>; 12] {
    [
        vec![|pass| pass.frame.sharpness = 8],
        vec![|pass| pass.frame.bit_depth = 9, |pass| pass.frame.bit_depth = 0],
        vec![|pass| pass.frame.sub_x = 2, |pass| pass.frame.sub_y = 2],
        vec![
            |pass| pass.frame.mi_cols = 0,
            |pass| pass.frame.mi_rows = 0,
            |pass| pass.frame.mi_cols = 8193,
            |pass| pass.frame.mi_rows = 8193,
        ],
        vec![|pass| pass.at.mi_row = 9, |pass| pass.at.mi_row = 16],
        vec![|pass| pass.cells.truncate(21), |pass| pass.cells.clear()],
        vec![|pass| pass.at.plane = 3, |pass| pass.at.pass = 2],
        vec![|pass| pass.at.mi_col = 9, |pass| pass.at.mi_col = 16],
        vec![|pass| pass.cells[5] |= 1, |pass| pass.cells[5] = 0x1100_1000],
        vec![
            |pass| pass.window.width = 0,
            |pass| pass.window.height = 0,
            |pass| pass.window.stride = 43,
            |pass| pass.window.y_origin = 65_525,
            |pass| pass.samples.truncate(593),
        ],
        vec![|pass| pass.samples[3 * 50 + 7] = 4096, |pass| pass.samples[157..].fill(65535)],
        vec![|pass| pass.cells.iter_mut().for_each(|word| *word &= !0x7ffff)],
    ]
}

/// Of several refusals the lowest number is returned: every set of faults, in several ways.
#[test]
fn lowest_number() {
    let faults = faults();
    let levelless = levelless(&with(faults[11][0])).unwrap();
    let mut random = Random(31);
    for set in 1u32..1 << NUMBERS.len() {
        let number = NUMBERS[set.trailing_zeros() as usize];
        let place = match number {
            11 => 5,
            13 => 3 * 44 + 7,
            14 => levelless,
            _ => 0,
        };
        for _ in 0..6 {
            let pass = with(|pass| {
                for (k, ways) in faults.iter().enumerate().rev() {
                    if set >> k & 1 == 1 {
                        random.one_of(ways)(pass);
                    }
                }
            });
            refused(&pass, number, place);
        }
    }
}
