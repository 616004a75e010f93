//! The document's own sheets, sheets without runs, the largest and the longest.

use differential::sheets::expected::expected;
use differential::sheets::small::{accepted, small};
use differential::sheets::{Sheet, ours, shown};

/// Case S as the document prints it.
const CASE_S: [u8; 16] = [0, 8, 0, 0x10, 0, 0, 0, 0, 0x11, 0x56, 0, 0, 0x11, 0x56, 0, 0];
const CASE_S_TEXT: &str = "pass 0 plane 0 row 0 col 0\n2 0 8 1 32\n";

/// The word of case S, and the same cell without level.
const WORD: u32 = 0x1156_0000;
const LEVELLESS: u32 = 0x1150_0000;

/// 8 by 8 in every plane, transforms 0, not skipped, level present: every edge is filtered.
const EVERY_EDGE: u32 = 0x0004_0000;

fn case_s(words: [u32; 2]) -> Sheet {
    let mut sheet = Sheet::read(&CASE_S).unwrap();
    sheet.words = words.to_vec();
    sheet
}

/// Exactly this text, which is also the model's.
fn prints(bytes: &[u8], text: &str) {
    assert_eq!(ours(bytes), text, "{}", shown(bytes));
    assert_eq!(expected(bytes), text, "the model, {}", shown(bytes));
}

/// Every byte, and the same as a string.
#[test]
fn case_s_whole() {
    prints(&CASE_S, CASE_S_TEXT);
    assert_eq!(springspade::sheet(&CASE_S), CASE_S_TEXT);
    assert_eq!(case_s([WORD; 2]).bytes(), CASE_S);
    let sheet = Sheet::read(&CASE_S).unwrap();
    assert_eq!((sheet.mi_cols, sheet.mi_rows), (2, 1));
}

/// Edge 2 reads the second cell alone.
#[test]
fn case_s_without_level() {
    prints(&case_s([WORD, LEVELLESS]).bytes(), "refused 14 place 128\n");
    prints(&case_s([LEVELLESS; 2]).bytes(), "refused 14 place 128\n");
    prints(&case_s([LEVELLESS, WORD]).bytes(), CASE_S_TEXT);
}

/// Sharpness, depth and the other plane change nothing but the first line.
#[test]
fn case_s_of_other_frames() {
    for sharpness in 0..=7 {
        for depth_code in 0..=2 {
            prints(&Sheet { sharpness, depth_code, ..case_s([WORD; 2]) }.bytes(), CASE_S_TEXT);
        }
    }
    for plane in [1, 2] {
        let text = format!("pass 0 plane {plane} row 0 col 0\n2 0 8 1 32\n");
        prints(&Sheet { plane, ..case_s([WORD; 2]) }.bytes(), &text);
    }
}

#[test]
fn no_runs() {
    prints(&Sheet { pass: 1, ..case_s([WORD; 2]) }.bytes(), "pass 1 plane 0 row 0 col 0\n");
    // A level that is present and 0.
    prints(&case_s([WORD, LEVELLESS | 1 << 18]).bytes(), "pass 0 plane 0 row 0 col 0\n");
    let one = Sheet { mi_cols: 1, words: vec![LEVELLESS], ..case_s([WORD; 2]) };
    prints(&one.bytes(), "pass 0 plane 0 row 0 col 0\n");
}

/// Whatever stands behind the row's words, cut words among them.
#[test]
fn bytes_behind() {
    for behind in 1..=40 {
        for byte in [0, 0x11, 0xff] {
            let mut bytes = CASE_S.to_vec();
            bytes.extend(vec![byte; behind]);
            prints(&bytes, CASE_S_TEXT);
        }
    }
    let mut bytes = CASE_S.to_vec();
    bytes.resize(100_000, 0xff);
    prints(&bytes, CASE_S_TEXT);
}

/// A cell of two words by column and row: so neighbours along an edge have other levels.
fn alternating(mi_cols: usize, levels: [u32; 2]) -> Vec<u32> {
    let words = levels.map(|level| EVERY_EDGE | level << 12);
    (0..8 * mi_cols).map(|k| words[(k % mi_cols + k / mi_cols) % 2]).collect()
}

/// The last superblock of the largest frame that a sheet can have: 8,192 words, 32,776 bytes.
fn largest(plane: u8, pass: u8, words: Vec<u32>) -> Sheet {
    let corner = Sheet { row_over_8: 1023, col_over_8: 127, plane, pass, ..small() };
    Sheet { mi_cols: 1024, mi_rows: 8192, words, ..corner }
}

/// Runs of 16 at every edge, the most that join.
#[test]
fn largest_sheet() {
    for pass in [0, 1] {
        let sheet = largest(0, pass, vec![EVERY_EDGE | 63 << 12; 8192]);
        let mut text = format!("pass {pass} plane 0 row 8184 col 1016\n");
        for edge in 0..16 {
            let size = u8::from(edge % 8 == 0);
            for first in [0, 16, 32, 48] {
                text += &format!("{edge} {first} 16 {size} 63\n");
            }
        }
        assert_eq!(sheet.bytes().len(), 32_776);
        prints(&sheet.bytes(), &text);
    }
    // Subsampled planes, and first superblocks of frames with eight rows.
    for plane in [0, 1, 2] {
        for pass in [0, 1] {
            accepted(&largest(plane, pass, alternating(1024, [9, 10])).bytes());
            let first = Sheet { mi_rows: 8, row_over_8: 0, ..largest(plane, pass, Vec::new()) };
            for col_over_8 in [0, 1, 127] {
                let words = alternating(1024, [1, 63]);
                accepted(&Sheet { col_over_8, words, ..first.clone() }.bytes());
            }
        }
    }
}

/// The longest text there is: 128 runs, 16 edges of 8 cells, each number with as many digits as it can
/// have. It has 1,585 bytes: 33 in the first line and 1,552 in the others.
#[test]
fn longest_text() {
    for pass in [0, 1] {
        let text = ours(&largest(0, pass, alternating(1024, [62, 63])).bytes());
        assert_eq!(text.lines().count(), 1 + 128);
        assert_eq!(text.len(), 1585);
        assert_eq!(text, expected(&largest(0, pass, alternating(1024, [62, 63])).bytes()));
    }
}
