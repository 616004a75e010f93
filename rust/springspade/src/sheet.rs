//! The run sheet: the runs of a pass, as text.

use crate::c;

/// So many bytes are always enough for a text; fewer are not taken.
pub const SHEET_ROOM: usize = 2048;

/// What a pass would filter, for a look at what cells come to: a line for the pass and one for each run, or the one line
/// of a refusal, `refused N place P`. The bytes are a header of 8 and four for each cell of a superblock row, as
/// `crates/sheet_header/specs/SheetHeader.antt` describes them.
#[must_use]
pub fn sheet(bytes: &[u8]) -> String {
    let mut text = [0; SHEET_ROOM];
    let length = sheet_into(bytes, &mut text).expect("there is room");
    text[..length].iter().map(|&byte| char::from(byte)).collect()
}

/// Writes the same at the front of `text` and gives its length in bytes. None, and `text` is left, where it has fewer than
/// [`SHEET_ROOM`] bytes.
#[must_use]
#[inline]
pub fn sheet_into(bytes: &[u8], text: &mut [u8]) -> Option<usize> {
    // SAFETY: each pointer goes with the length of its own slice.
    let length =
        unsafe { c::springspade_sheet(bytes.as_ptr(), bytes.len(), text.as_mut_ptr(), text.len()) };
    // No text is empty.
    (length > 0).then_some(length)
}
