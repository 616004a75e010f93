//! A small pass that is accepted, and checks of passes that are accepted or refused, over u16 and over bytes.

use super::Pass;
use crate::positions::filtered;
use crate::random::Random;
use crate::returned::Returned;
use springspade::{Frame, Superblock, Window};

/// Numbers of more than 32 bits. The lower 32 of the first two could pass.
pub const LARGE: [usize; 3] = [1 << 32, (1 << 32) + 8, usize::MAX - 7];

const ACCEPTED: Returned = Returned { number: 0, place: 0 };

/// The last superblock of a frame of 11 by 10 cells, with eight rows above it; 22 cells.
pub fn small() -> Pass {
    let frame = Frame { sharpness: 7, bit_depth: 12, sub_x: 1, sub_y: 1, mi_cols: 11, mi_rows: 10 };
    let at = Superblock { mi_row: 8, mi_col: 8, plane: 2, pass: 1 };
    let window = Window { width: 44, height: 12, stride: 50, y_origin: 24 };
    let mut pass = Pass::accepted(&mut Random(28), frame, at, window);
    // Samples of every depth, and as many as the window needs.
    pass.samples.truncate(11 * 50 + 44);
    pass.samples.iter_mut().for_each(|sample| *sample %= 256);
    pass.cells.truncate(22);
    pass
}

/// Accepted, and the samples after it are those of the steps, and the Rust's.
pub fn accepted(pass: &Pass) {
    let (returned, after) = pass.ours();
    assert_eq!(returned, ACCEPTED, "{}", pass.call());
    assert_eq!(over_bytes(pass), ACCEPTED, "{}", pass.call());
    let expected = filtered(pass);
    assert!(after == expected, "{}", pass.difference(&after, &expected));
    #[cfg(oracle)]
    assert!(crate::rust::pass(pass).as_ref() == Some(&after), "the Rust, {}", pass.call());
}

/// Refused, and all samples are left.
pub fn refused(pass: &Pass, number: u32, place: u32) {
    let (returned, after) = pass.ours();
    assert_eq!(returned, Returned { number, place }, "{}", pass.call());
    assert!(after == pass.samples, "{}", pass.difference(&after, &pass.samples));
    let over_bytes = over_bytes(pass);
    if number != 13 {
        assert_eq!(over_bytes, returned, "{}", pass.call());
    }
}

/// What the same pass over bytes returns: what it does over u16, and it leaves the same samples. It is never refused
/// with 13. At depth 10 or 12 it is refused with 2, if not with 1.
fn over_bytes(pass: &Pass) -> Returned {
    let bytes = pass.of_bytes();
    let (returned, after) = bytes.ours_by_bytes(&bytes.cell_bytes(), 1);
    let (over_u16, expected) = bytes.ours();
    assert_eq!(returned, over_u16, "{}", bytes.call());
    assert!(after == expected, "{}", bytes.difference(&after, &expected));
    assert_ne!(returned.number, 13, "{}", bytes.call());
    for bit_depth in [10, 12] {
        let deep = Pass { frame: Frame { bit_depth, ..bytes.frame }, ..bytes.clone() };
        let (refused, after) = deep.ours_by_bytes(&deep.cell_bytes(), 1);
        let number = if returned.number == 1 { 1 } else { 2 };
        assert_eq!(refused, Returned { number, place: 0 }, "{}", deep.call());
        assert!(after == deep.samples, "{}", deep.difference(&after, &deep.samples));
    }
    returned
}

pub fn with(change: impl FnOnce(&mut Pass)) -> Pass {
    let mut pass = small();
    change(&mut pass);
    pass
}
