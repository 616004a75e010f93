//! Random windows of a plane, around and beside a superblock.

use crate::random::Random;
use springspade::{Frame, Superblock, Window};

/// Width and height have at most so many samples, and so has the y origin with the height.
const MOST: i64 = 65_536;

pub fn random(random: &mut Random, frame: &Frame, at: &Superblock) -> Window {
    let (sub_x, sub_y) = super::subsampling(frame, at.plane);
    // The plane's columns and rows, the superblock's first of each, and the first row below it.
    let (columns, rows) =
        ((8 * frame.mi_cols as i64) >> sub_x, (8 * frame.mi_rows as i64) >> sub_y);
    let (left, top) = ((8 * at.mi_col as i64) >> sub_x, (8 * at.mi_row as i64) >> sub_y);
    let bottom = top + (64 >> sub_y);
    let above = (top - 8).max(0);
    let (width, y_origin, end) = match random.between(0, 15) {
        // The superblock row with eight rows above it.
        0..6 => (columns, above, bottom.min(rows)),
        6 => (columns, (bottom - 200).max(0), rows.min(bottom + 100)),
        // Left of the superblock, above it, below it, by some samples.
        7 => (left - random.between(-1, 20), above, bottom),
        8 => (columns, top - 20, top - random.between(-1, 12)),
        9 => (columns, bottom + random.between(-1, 12), bottom + 24),
        10 => {
            let y_origin = top + random.between(-12, 20);
            let width = left + random.one_of(&[1, 2, 4, 5, 8, 9, 12, 15, 16, 20, 28]);
            (width, y_origin, y_origin + random.between(1, 20))
        }
        // A border anywhere inside the superblock, or beside it.
        _ => {
            let y_origin = top + random.between(-16, 64);
            (left + random.between(1, 80), y_origin, y_origin + random.between(1, 80))
        }
    };
    let width = if random.between(0, 31) == 0 { random.between(1, 16) } else { width };
    shape(random, width, y_origin, end)
}

/// A window with these borders, where they are not refused.
fn shape(random: &mut Random, width: i64, y_origin: i64, end: i64) -> Window {
    let width = width.clamp(1, MOST);
    let y_origin = y_origin.clamp(0, MOST - 1);
    let height = end.min(MOST) - y_origin;
    let stride = width
        + match random.between(0, 3) {
            0 | 1 => 0,
            2 => random.between(1, 7),
            _ => random.between(1, 40),
        };
    Window {
        width: width as usize,
        height: height.max(1) as usize,
        stride: stride as usize,
        y_origin: y_origin as usize,
    }
}
