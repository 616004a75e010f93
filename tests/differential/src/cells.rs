//! The packed cell as document 01 lays it out, from the most significant bit.

use springspade::Cell;

/// The bits of width 0 and 1, height 0 and 1, transform, chroma transform, skipped, present and level.
const BITS: [u32; 9] = [2, 2, 2, 2, 2, 2, 1, 1, 6];

/// The bits behind them, which are zero.
const ZEROS: u32 = 12;

/// The word of a cell whose fields fit.
pub fn packed(cell: &Cell) -> u32 {
    let &Cell { width0, width1, height0, height1, tx, uvtx, skipped, present, level } = cell;
    let fields =
        [width0, width1, height0, height1, tx, uvtx, skipped.into(), present.into(), level];
    let word = fields.iter().zip(BITS).fold(0, |word, (&field, bits)| {
        assert!(u32::from(field) < 1 << bits, "{cell:?}");
        word << bits | u32::from(field)
    });
    word << ZEROS
}

/// The fields of a word, and its zero bits.
pub fn unpacked(word: u32) -> (Cell, u32) {
    let mut rest = word;
    let [width0, width1, height0, height1, tx, uvtx, skipped, present, level] = BITS.map(|bits| {
        rest = rest.rotate_left(bits);
        (rest % (1 << bits)) as u8
    });
    let (skipped, present) = (skipped != 0, present != 0);
    let cell = Cell { width0, width1, height0, height1, tx, uvtx, skipped, present, level };
    (cell, word % (1 << ZEROS))
}
