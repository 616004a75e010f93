//! Random sheets.

use super::{BITS, Sheet};
use crate::passes::words;
use crate::random::Random;
use crate::rows::superblock;

impl Sheet {
    /// A random sheet; most are accepted. Now and then a field or a word is a bad one.
    pub fn random(random: &mut Random) -> Sheet {
        let mi_cols = mi_cols(random);
        let mut sheet = Sheet::over(random, mi_cols);
        if random.between(0, 11) == 0 {
            sheet = with_any_field(random, sheet);
        }
        if random.between(0, 11) == 0 {
            add_bad_word(random, &mut sheet);
        }
        sheet
    }

    /// A random sheet of at most so many columns, refused for nothing but a cell without level.
    pub fn few(random: &mut Random, most: i64) -> Sheet {
        let mi_cols = random.between(1, most);
        Sheet::over(random, mi_cols as usize)
    }

    fn over(random: &mut Random, mi_cols: usize) -> Sheet {
        let mi_rows = mi_rows(random);
        let mut sheet = Sheet {
            mi_cols,
            mi_rows,
            sub_x: random.flag().into(),
            sub_y: random.flag().into(),
            sharpness: random.between(0, 7) as u8,
            depth_code: random.between(0, 2) as u8,
            plane: random.between(0, 2) as u8,
            pass: random.flag().into(),
            row_over_8: superblock(random, mi_rows) / 8,
            col_over_8: superblock(random, mi_cols) / 8,
            spare: 0,
            words: Vec::new(),
        };
        // Of so many cells one has no level.
        let absent = random.one_of(&[0, 0, 0, 0, 0, 0, 0, 2, 20, 100]);
        sheet.words = words::random(random, &sheet.frame(), 8 * sheet.row_over_8, absent);
        if random.between(0, 3) > 0 {
            make_regions(random, &mut sheet);
        }
        sheet
    }
}

/// What ends inside one of three superblocks; seldom many, since each takes so much longer.
fn mi_cols(random: &mut Random) -> usize {
    match random.between(0, 199) {
        0 => random.one_of(&[1016, 1017, 1023, 1024]),
        1..4 => random.between(25, 200) as usize,
        _ => random.between(1, 24) as usize,
    }
}

fn mi_rows(random: &mut Random) -> usize {
    match random.between(0, 19) {
        0 => random.one_of(&[8184, 8185, 8191, 8192]),
        1..4 => random.one_of(&[1, 2, 7, 8, 9, 16]),
        _ => random.between(1, 24) as usize,
    }
}

/// Gives all cells of a region the word of its first, so that runs join.
fn make_regions(random: &mut Random, sheet: &mut Sheet) {
    let sides = [1, 2, 3, 4, 5, 8];
    let (wide, high) = (random.one_of(&sides), random.one_of(&sides));
    for k in 0..sheet.row_cells() {
        let (column, row) = (k % sheet.mi_cols, k / sheet.mi_cols);
        let first = (row - row % high) * sheet.mi_cols + column - column % wide;
        sheet.words[k] = sheet.words[first];
    }
}

/// One field becomes any number that fits its bits.
fn with_any_field(random: &mut Random, sheet: Sheet) -> Sheet {
    let mut fields = sheet.fields();
    let field = random.between(0, BITS.len() as i64 - 1) as usize;
    fields[field] = random.number() % (1 << BITS[field]);
    Sheet::from_fields(fields, sheet.words)
}

/// Somewhere in the row a zero bit is set, or a level that is absent is not 0.
fn add_bad_word(random: &mut Random, sheet: &mut Sheet) {
    let word = random.between(0, sheet.words.len() as i64 - 1) as usize;
    let word = &mut sheet.words[word];
    *word = match random.flag() {
        true => *word | 1 << random.between(0, 11),
        false => *word & !0x7ffff | (random.between(1, 63) as u32) << 12,
    };
}
