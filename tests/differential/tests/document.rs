//! The document's own cases and refusals.

use differential::cases::*;
use differential::edges::FIRST;
use differential::lines::STEP;
use differential::random::Random;
use differential::returned::*;
use springspade::*;

const ACCEPTED: Returned = Returned { number: 0, place: 0 };

fn table(case: &Case) -> [u8; 64] {
    level_table(&case.loop_filter(), &case.segmentation()).unwrap()
}

#[test]
fn strengths() {
    for (lvl, sharpness, limit, blimit, thresh) in [
        (0, 0, 1, 5, 0),
        (63, 0, 63, 193, 3),
        (63, 7, 2, 132, 3),
        (32, 4, 5, 73, 2),
        (32, 5, 4, 72, 2),
    ] {
        assert_eq!(strength(lvl, sharpness), Ok(Strength { limit, blimit, thresh }));
    }
}

#[test]
fn strengths_refused() {
    for sharpness in 0..=255 {
        for lvl in 0..=255 {
            let number = match (sharpness, lvl) {
                (8.., _) => 1,
                (_, 64..) => 6,
                _ => 0,
            };
            let (returned, values) = strength_returned(lvl, sharpness);
            assert_eq!(returned, Returned { number, place: 0 }, "{lvl} {sharpness}");
            if number != 0 {
                assert_eq!(values, Strength { limit: 0, blimit: 0, thresh: 0 });
                assert_eq!(strength(lvl, sharpness), Err(Refused { number, place: 0 }));
            }
        }
    }
}

#[test]
fn mode_types() {
    for mode in 0..=255 {
        assert_eq!(mode_type(mode), matches!(mode, 10 | 11 | 13) as usize, "mode {mode}");
    }
}

#[test]
fn level_tables() {
    for segment in table(&LEVEL_40).chunks(8) {
        assert_eq!(segment, [42, 40, 40, 40, 38, 38, 38, 38]);
    }
    for (i, segment) in table(&SEGMENT_20).chunks(8).enumerate() {
        assert_eq!(segment[0], if i == SEGMENT { 22 } else { 42 });
    }
    for segment in table(&LEVEL_31).chunks(8) {
        assert_eq!(segment[0], 32);
    }
    assert_eq!(table(&UPDATED_NOT_ENABLED), [0; 64]);
}

/// Levels before a call; a table has no such entry.
const BEFORE: [u8; 80] = [200; 80];

#[test]
fn levels_refused() {
    let mut random = Random(4);
    for level in 64..=255 {
        let case = Case { level, ..Case::random(&mut random) };
        let mut levels = BEFORE;
        let returned = level_table_into(&case.lists(), &mut levels);
        assert_eq!(returned, Returned { number: 6, place: 0 }, "{case:?}");
        assert_eq!(levels, BEFORE, "{case:?}");
    }
}

#[test]
fn lists_too_short() {
    let full = LEVEL_40.lists();
    let shorts = [
        Lists { deltas: &full.deltas[..5], ..full },
        Lists { present: &full.present[..5], ..full },
        Lists { feature_enabled: &full.feature_enabled[..31], ..full },
        Lists { feature_data: &full.feature_data[..31], ..full },
        Lists { deltas: &[], present: &[], feature_enabled: &[], feature_data: &[], ..full },
    ];
    let refused = |lists: &Lists, length: usize, number: u32| {
        let mut levels = BEFORE;
        let returned = level_table_into(lists, &mut levels[..length]);
        assert_eq!(returned, Returned { number, place: 0 }, "{length} {lists:?}");
        assert_eq!(levels, BEFORE, "{length} {lists:?}");
    };
    for short in &shorts {
        refused(short, 64, 7);
        refused(&Lists { level: 64, ..*short }, 64, 6);
    }
    for length in [0, 1, 63] {
        refused(&full, length, 7);
        refused(&Lists { level: 64, ..full }, length, 6);
    }
}

#[test]
fn lists_long_enough() {
    let full = LEVEL_40.lists();
    let longer = Lists {
        deltas: &[0; 7],
        present: &[false; 7],
        feature_enabled: &[false; 33],
        feature_data: &[0; 33],
        ..full
    };
    for (lists, length) in [(full, 64), (full, 65), (longer, 64), (longer, 80)] {
        let mut levels = BEFORE;
        assert_eq!(level_table_into(&lists, &mut levels[..length]), ACCEPTED);
        assert_eq!(levels[..64], table(&LEVEL_40));
        assert_eq!(levels[64..], BEFORE[64..]);
    }
}

/// The strength of the document's lines.
fn strength_32() -> Strength {
    strength(32, 0).unwrap()
}

/// `taps` with the samples from `first` on replaced.
fn with(mut taps: [u16; 16], first: usize, samples: &[u16]) -> [u16; 16] {
    taps[first..][..samples.len()].copy_from_slice(samples);
    taps
}

#[test]
fn lines() {
    let step_10 = STEP.map(|sample| sample * 4);
    let six = [101, 101, 102, 103, 103, 104];
    let fourteen = [100, 101, 101, 101, 101, 102, 102, 102, 103, 103, 103, 103, 104, 104];
    for (depth, size, before, after) in [
        (8, 0, STEP, with(STEP, 6, &[101, 101, 102, 103])),
        (8, 1, STEP, with(STEP, 5, &six)),
        (8, 2, STEP, with(STEP, 1, &fourteen)),
        (8, 0, with(STEP, 7, &[110]), with(STEP, 7, &[107, 107])),
        (10, 0, step_10, with(step_10, 6, &[403, 406, 410, 413])),
    ] {
        let mut taps = before;
        assert_eq!(line(&mut taps, depth, size, strength_32()), Ok(()));
        assert_eq!(taps, after, "depth {depth}, size {size}, {before:?}");
    }
}

/// The line is refused, and its samples are left.
fn line_refused(taps: [u16; 16], depth: u8, size: u8, number: u32, place: u32) {
    let mut after = taps;
    let refused = line(&mut after, depth, size, strength_32());
    let call = format!("depth {depth}, size {size}, {taps:?}");
    assert_eq!(refused, Err(Refused { number, place }), "{call}");
    assert_eq!(after, taps, "{call}");
}

#[test]
fn line_depths() {
    for depth in 0..=255 {
        if matches!(depth, 8 | 10 | 12) {
            assert_eq!(line(&mut STEP.clone(), depth, 2, strength_32()), Ok(()));
        } else {
            line_refused(STEP, depth, 2, 2, 0);
        }
    }
}

#[test]
fn line_sizes() {
    for size in 0..=255 {
        if size <= 2 {
            assert_eq!(line(&mut STEP.clone(), 8, size, strength_32()), Ok(()));
        } else {
            line_refused(STEP, 8, size, 15, 0);
        }
    }
}

#[test]
fn line_samples() {
    for (depth, top) in [(8, 255), (10, 1023), (12, 4095)] {
        for tap in 0..16 {
            let mut taps = with(STEP, tap, &[top]);
            assert_eq!(line(&mut taps, depth, 0, strength_32()), Ok(()));
            for sample in [top + 1, 32768, 65535] {
                let place = tap as u32;
                line_refused(with(STEP, tap, &[sample]), depth, 0, 13, place);
                let behind = with(STEP, tap, &[sample; 16][tap..]);
                line_refused(behind, depth, 0, 13, place);
            }
        }
    }
}

/// Of several refusals the lowest number is returned.
#[test]
fn lines_refused() {
    for faults in 1..8 {
        let [depth, sample, size] = [1, 2, 4].map(|fault| faults & fault != 0);
        let (number, place) = match (depth, sample) {
            (true, _) => (2, 0),
            (_, true) => (13, 3),
            _ => (15, 0),
        };
        let taps = if sample { with(STEP, 3, &[65535]) } else { STEP };
        line_refused(taps, 8 + u8::from(depth), 2 + u8::from(size), number, place);
    }
}

/// The cell of case S: 8 by 8 in every plane, transform 1, level 32.
const CASE_S: u32 = 0x1156_0000;

#[test]
fn case_s_cells() {
    let info = ModeInfo {
        mi_sizes: &[3; 2],
        tx_sizes: &[1; 2],
        skips: &[0; 2],
        ref_frames: &[0; 2],
        y_modes: &[0; 2],
        segment_ids: &[0; 2],
    };
    let frame = Frame { sharpness: 0, bit_depth: 8, sub_x: 0, sub_y: 0, mi_cols: 2, mi_rows: 1 };
    let mut cells = [0; 2];
    assert_eq!(row(&info, &[32; 64], &frame, 0, &mut cells), Ok(()));
    assert_eq!(cells, [CASE_S; 2]);
    // Without level.
    let info = ModeInfo { segment_ids: &[0, 8], ..info };
    assert_eq!(row(&info, &[32; 64], &frame, 0, &mut cells), Ok(()));
    assert_eq!(cells, [CASE_S, 0x1150_0000]);
}

#[test]
fn case_s_word() {
    let (skipped, present, level) = (false, true, 32);
    let (width0, width1, height0, height1, tx, uvtx) = (0, 1, 0, 1, 1, 1);
    let expected = Cell { width0, width1, height0, height1, tx, uvtx, skipped, present, level };
    assert_eq!(cell(CASE_S), expected);
    assert_eq!(cell(0x1150_0000), Cell { present: false, level: 0, ..expected });
}

/// Its one run: edge 2, 8 positions from 0 on, size 1.
#[test]
fn case_s_edges() {
    for number in 0..16 {
        for i in 0..64 {
            let at = Position { edge: number, i, mi_cols: 2, mi_size: 3, tx_size: 1, ..FIRST };
            let facts = edge(&at).unwrap();
            assert_eq!(facts.apply_filter, number == 2 && i < 8, "edge {number}, i {i}");
            assert_eq!(facts.filter_size, 1);
        }
    }
}
