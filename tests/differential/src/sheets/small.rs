//! A small sheet that is accepted, and checks of sheets that are accepted or refused.

use super::expected::expected;
use super::{Sheet, ours, shown};
use crate::passes::small as passes;

/// The last superblock of a frame of 11 by 10 cells; 22 cells, all with level.
pub fn small() -> Sheet {
    Sheet {
        mi_cols: 11,
        mi_rows: 10,
        sub_x: 1,
        sub_y: 1,
        sharpness: 7,
        depth_code: 2,
        plane: 2,
        pass: 1,
        row_over_8: 1,
        col_over_8: 1,
        spare: 0,
        words: passes::small().cells,
    }
}

pub fn with(change: impl FnOnce(&mut Sheet)) -> Sheet {
    let mut sheet = small();
    change(&mut sheet);
    sheet
}

/// Accepted, with the runs that are expected.
pub fn accepted(bytes: &[u8]) {
    let text = ours(bytes);
    assert!(text.starts_with("pass "), "{text}, {}", shown(bytes));
    assert_eq!(text, expected(bytes), "{}", shown(bytes));
}

/// Refused, as is expected.
pub fn refused(bytes: &[u8], number: u32, place: u32) {
    let text = format!("refused {number} place {place}\n");
    assert_eq!(ours(bytes), text, "{}", shown(bytes));
    assert_eq!(expected(bytes), text, "the model, {}", shown(bytes));
}
