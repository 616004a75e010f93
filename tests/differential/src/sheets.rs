//! Run sheets as document 01 lays them out, and what ours makes of their bytes.

pub mod damaged;
pub mod expected;
mod random;
pub mod reached;
pub mod runs;
pub mod small;

use crate::passes::{Pass, row_cells};
use springspade::{Frame, SHEET_ROOM, Superblock, Window, sheet_into};

/// A sheet by its fields, which are as they stand in its header, and its words.
#[derive(Debug, Clone, PartialEq, Eq)]
pub struct Sheet {
    pub mi_cols: usize,
    pub mi_rows: usize,
    pub sub_x: u8,
    pub sub_y: u8,
    pub sharpness: u8,
    /// 0, 1, 2 for 8, 10, 12.
    pub depth_code: u8,
    pub plane: u8,
    pub pass: u8,
    /// The row base over 8, and the column over 8.
    pub row_over_8: usize,
    pub col_over_8: usize,
    pub spare: u8,
    pub words: Vec<u32>,
}

/// The bits of the header's fields, in their order from the most significant bit.
pub const BITS: [u32; 11] = [14, 14, 1, 1, 3, 2, 2, 1, 10, 10, 6];

pub type Fields = [u64; 11];

/// The header's bytes.
pub const HEADER: usize = 8;

/// Stands around and behind a text, of which it is no byte.
const GUARD: u8 = 0xa5;

impl Sheet {
    pub fn fields(&self) -> Fields {
        [
            self.mi_cols as u64,
            self.mi_rows as u64,
            self.sub_x.into(),
            self.sub_y.into(),
            self.sharpness.into(),
            self.depth_code.into(),
            self.plane.into(),
            self.pass.into(),
            self.row_over_8 as u64,
            self.col_over_8 as u64,
            self.spare.into(),
        ]
    }

    pub fn from_fields(fields: Fields, words: Vec<u32>) -> Sheet {
        let [mi_cols, mi_rows, sub_x, sub_y, sharpness, depth_code, plane, pass, row, col, spare] =
            fields;
        Sheet {
            mi_cols: mi_cols as usize,
            mi_rows: mi_rows as usize,
            sub_x: sub_x as u8,
            sub_y: sub_y as u8,
            sharpness: sharpness as u8,
            depth_code: depth_code as u8,
            plane: plane as u8,
            pass: pass as u8,
            row_over_8: row as usize,
            col_over_8: col as usize,
            spare: spare as u8,
            words,
        }
    }

    /// The sheet whose fields fit their bits.
    pub fn bytes(&self) -> Vec<u8> {
        let header = self.fields().into_iter().zip(BITS).fold(0u64, |header, (field, bits)| {
            assert!(field < 1 << bits, "{:?}", self.fields());
            header << bits | field
        });
        let words = self.words.iter().flat_map(|word| word.to_be_bytes());
        header.to_be_bytes().into_iter().chain(words).collect()
    }

    /// The sheet of these bytes; none where they end inside its header. A cut word is no word.
    pub fn read(bytes: &[u8]) -> Option<Sheet> {
        let (header, words) = bytes.split_first_chunk::<HEADER>()?;
        let mut rest = u64::from_be_bytes(*header);
        let fields = BITS.map(|bits| {
            rest = rest.rotate_left(bits);
            rest % (1 << bits)
        });
        let words = words.as_chunks().0.iter().map(|&word| u32::from_be_bytes(word)).collect();
        Some(Sheet::from_fields(fields, words))
    }

    /// How many cells the superblock row has.
    pub fn row_cells(&self) -> usize {
        row_cells(&self.frame(), 8 * self.row_over_8)
    }

    pub fn frame(&self) -> Frame {
        Frame {
            sharpness: self.sharpness,
            bit_depth: 8 + 2 * self.depth_code,
            sub_x: self.sub_x,
            sub_y: self.sub_y,
            mi_cols: self.mi_cols,
            mi_rows: self.mi_rows,
        }
    }

    /// The pass whose runs are asked for, over a window of one sample: runs do not depend on it.
    pub fn as_pass(&self) -> Pass {
        Pass {
            frame: self.frame(),
            at: Superblock {
                mi_row: 8 * self.row_over_8,
                mi_col: 8 * self.col_over_8,
                plane: self.plane,
                pass: self.pass,
            },
            cells: self.words.clone(),
            window: Window { width: 1, height: 1, stride: 1, y_origin: 0 },
            samples: vec![0],
        }
    }
}

/// The text that ours writes. What is behind the text is left, in the lent room and past it.
pub fn ours(bytes: &[u8]) -> String {
    let mut memory = [GUARD; 64 + SHEET_ROOM + 64];
    let length = sheet_into(bytes, &mut memory[64..64 + SHEET_ROOM]);
    let length = length.unwrap_or_else(|| panic!("no text, {}", shown(bytes)));
    assert!(length <= SHEET_ROOM, "a text of {length} bytes, {}", shown(bytes));
    let (before, rest) = memory.split_at(64);
    let (text, behind) = rest.split_at(length);
    let is_left = |bytes: &[u8]| bytes.iter().all(|&byte| byte == GUARD);
    assert!(is_left(before) && is_left(behind), "beside the text, {}", shown(bytes));
    text.iter().map(|&byte| char::from(byte)).collect()
}

/// The first of a sheet's bytes, for messages.
pub fn shown(bytes: &[u8]) -> String {
    let hex: String = bytes.iter().take(600).map(|byte| format!("{byte:02x}")).collect();
    let fields = Sheet::read(bytes).map(|sheet| sheet.fields());
    format!("sheet of {} bytes, fields {fields:?}: {hex}", bytes.len())
}
