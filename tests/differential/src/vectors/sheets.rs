//! sheets.bin: sheets with the text that document 01 asks for, their runs by the Rust.

use crate::random::Random;
use crate::sheets::expected::expected;
use crate::sheets::reached::{Reached, count};
use crate::sheets::small::{small, with};
use crate::sheets::{HEADER, Sheet, damaged};
use std::collections::BTreeMap;

/// A record has room for so many bytes of a sheet and of a text; behind its bytes they are 0.
const SHEET: usize = 272;
const TEXT: usize = 1584;

/// Of so many random sheets those are taken that reach what none before them reached.
const CANDIDATES: usize = 8_000;

/// So many damaged sheets of each kind of text, by its first words.
const DAMAGED: usize = 1;

pub fn contents() -> Vec<u8> {
    let sheets = [document(), full(), refused(), random(), damaged()].concat();
    sheets.iter().flat_map(|bytes| record(bytes)).collect()
}

/// Case S, without level at each cell and both, at level 0, in the other pass, with bytes behind.
fn document() -> Vec<Vec<u8>> {
    const WORD: u32 = 0x1156_0000;
    const LEVELLESS: u32 = 0x1150_0000;
    let of = |pass: u8, words: &[u32]| {
        let header = Sheet::read(&[0, 8, 0, 0x10, 0, 0, 0, 0]).unwrap();
        Sheet { pass, words: words.to_vec(), ..header }.bytes()
    };
    vec![
        of(0, &[WORD; 2]),
        of(0, &[WORD, LEVELLESS]),
        of(0, &[LEVELLESS, WORD]),
        of(0, &[LEVELLESS; 2]),
        of(0, &[WORD, 0x1154_0000]),
        of(1, &[WORD; 2]),
        of(0, &[WORD, WORD, u32::MAX]),
        [of(0, &[WORD; 2]), vec![0xff; 3]].concat(),
    ]
}

/// 64 cells of which every edge is filtered: 128 runs, the longest text of a sheet of this length; and
/// runs of 16.
fn full() -> Vec<Vec<u8>> {
    let sheet = Sheet { mi_cols: 8, mi_rows: 8192, row_over_8: 1023, col_over_8: 0, ..small() };
    let of = |pass: u8, plane: u8, levels: [u32; 2]| {
        let word = |k: u32| 0x0004_0000 | levels[((k + k / 8) % 2) as usize] << 12;
        let words = (0..64).map(word).collect();
        Sheet { pass, plane, words, ..sheet.clone() }.bytes()
    };
    vec![of(1, 0, [62, 63]), of(1, 0, [63; 2]), of(0, 0, [1; 2]), of(1, 1, [9, 10])]
}

/// What is wrong with a sheet, and the number and place of its refusal. The first five are accepted.
type Fault = (u32, u32, fn(&mut Sheet));

const FAULTS: [Fault; 41] = [
    (0, 0, |_| ()),
    (0, 0, |s| s.sharpness = 0),
    (0, 0, |s| (s.mi_rows, s.row_over_8) = (8186, 1023)),
    (0, 0, |s| s.words.push(u32::MAX)),
    (0, 0, |s| s.words.fill(1 << 18)),
    (2, 0, |s| s.depth_code = 3),
    (4, 0, |s| s.mi_cols = 0),
    (4, 0, |s| s.mi_rows = 0),
    (4, 0, |s| s.mi_rows = 8193),
    (4, 0, |s| s.mi_rows = 16383),
    (5, 0, |s| s.row_over_8 = 2),
    (5, 0, |s| s.row_over_8 = 1023),
    (5, 0, |s| s.mi_rows = 8),
    (7, 0, |s| s.mi_rows = 11),
    (7, 0, |s| s.mi_cols = 12),
    (7, 0, |s| s.mi_cols = 1024),
    (7, 0, |s| s.words.truncate(21)),
    (7, 0, |s| s.words.clear()),
    (9, 0, |s| s.plane = 3),
    (10, 0, |s| s.col_over_8 = 2),
    (10, 0, |s| s.col_over_8 = 1023),
    (10, 0, |s| s.mi_cols = 8),
    (11, 0, |s| s.words[0] |= 1),
    (11, 7, |s| s.words[7] |= 0x800),
    (11, 21, |s| s.words[21] |= 0xfff),
    (11, 4, |s| s.words[4] = 0x1100_1000),
    (11, 3, |s| (s.words[3], s.words[2], s.words[15]) = (0x1103_f000, 0x1100_0000, 1)),
    (17, 0, |s| s.spare = 1),
    (17, 0, |s| s.spare = 32),
    (17, 0, |s| s.mi_cols = 1025),
    (17, 0, |s| s.mi_cols = 8193),
    (17, 0, |s| (s.mi_cols, s.depth_code) = (2000, 3)),
    (17, 0, |s| (s.spare, s.words) = (1, Vec::new())),
    (2, 0, |s| (s.mi_cols, s.depth_code) = (0, 3)),
    (4, 0, |s| (s.mi_rows, s.row_over_8) = (0, 2)),
    (5, 0, |s| (s.row_over_8, s.col_over_8) = (2, 2)),
    (7, 0, |s| (s.plane, s.words) = (3, Vec::new())),
    (9, 0, |s| (s.plane, s.col_over_8) = (3, 2)),
    (10, 0, |s| (s.col_over_8, s.words[4]) = (2, 1)),
    (11, 21, |s| (s.words, s.spare) = ([vec![0; 21], vec![1]].concat(), 0)),
    (14, 0, |s| s.words = vec![0; 22]),
];

/// Each fault, then a header and a last word that are cut.
fn refused() -> Vec<Vec<u8>> {
    let faulty = FAULTS.iter().map(|&(number, place, fault)| {
        let bytes = with(fault).bytes();
        let text = expected(&bytes);
        let refused = format!("refused {number} place {place}\n");
        assert!(text == refused || number == 0 && text.starts_with("pass "), "{text}{refused}");
        bytes
    });
    let whole = small().bytes();
    let cut = [0, 1, HEADER - 1, HEADER, whole.len() - 1].map(|length| whole[..length].to_vec());
    faulty.chain(cut).collect()
}

/// Whether a record has room for a sheet and its text.
fn fits(bytes: &[u8]) -> bool {
    bytes.len() <= SHEET && expected(bytes).len() <= TEXT
}

/// Random sheets that fit into a record, those that reach what was not yet reached.
fn random() -> Vec<Vec<u8>> {
    let mut random = Random(47);
    let mut all = Reached::default();
    let mut sheets = Vec::new();
    for k in 0..CANDIDATES {
        let sheet =
            if k % 2 == 0 { Sheet::few(&mut random, 8) } else { Sheet::random(&mut random) };
        let bytes = sheet.bytes();
        if !fits(&bytes) {
            continue;
        }
        let mut one = Reached::default();
        count(&mut one, &bytes);
        let is_new = |name: &String| all.0.get(name).is_none_or(|&often| often == 0);
        if one.0.iter().any(|(name, &count)| count > 0 && is_new(name)) {
            for (name, count) in one.0 {
                *all.0.entry(name).or_default() += count;
            }
            sheets.push(bytes);
        }
    }
    let missed: Vec<_> = all.0.iter().filter(|(_, often)| **often == 0).collect();
    assert!(missed.is_empty(), "{missed:?}");
    sheets
}

/// Damaged sheets and any bytes: some for each refusal, and some that are accepted.
fn damaged() -> Vec<Vec<u8>> {
    let mut random = Random(48);
    let mut kinds = BTreeMap::<String, usize>::new();
    let mut sheets = Vec::new();
    for _ in 0..CANDIDATES {
        let bytes = damaged::bytes(&mut random);
        let text = expected(&bytes);
        let kind = text.split(" p").next().unwrap().to_string();
        let often = kinds.entry(kind).or_default();
        if *often < DAMAGED && fits(&bytes) {
            *often += 1;
            sheets.push(bytes);
        }
    }
    sheets
}

fn record(bytes: &[u8]) -> Vec<u8> {
    let text = expected(bytes);
    assert!(fits(bytes), "{} bytes, {text}", bytes.len());
    let mut record = Vec::new();
    for length in [bytes.len(), text.len()] {
        record.extend((length as u16).to_le_bytes());
    }
    record.extend(bytes);
    record.resize(4 + SHEET, 0);
    record.extend(text.as_bytes());
    record.resize(4 + SHEET + TEXT, 0);
    record
}
