//! A whole frame through row and pass, ours and the Rust's, from its own settings and mode info on.

use super::{Frame, plane_size};
use crate::passes::subsampling;
use crate::rows::{Blocks, Row};
use recipe::filter_frame;
use springspade::{Superblock, Window, cell_bytes, level_table, pass_bytes};

#[allow(dead_code, reason = "the recipe is a program")]
#[path = "../../../../rust/springspade/examples/frame.rs"]
mod recipe;

pub type Planes = [Vec<u16>; 3];

/// The words of a superblock row, by our level table and row.
pub fn words(frame: &Frame, base: usize) -> Vec<u32> {
    let case = &frame.case;
    let levels = level_table(&case.loop_filter(), &case.segmentation()).unwrap();
    Row { levels, ..frame.row(base) }.words()
}

/// The planes that ours gives, by the recipe that users are shown.
pub fn ours(frame: &Frame) -> Planes {
    let blocks: Blocks = frame.cells.iter().map(|cell| cell.block).collect();
    let (loop_filter, segmentation) = (frame.case.loop_filter(), frame.case.segmentation());
    let mut planes = frame.before.clone();
    let filtered =
        filter_frame(&loop_filter, &segmentation, &frame.frame, &blocks.info(), &mut planes);
    assert_eq!(filtered, Ok(()), "{}", frame.name);
    planes
}

/// The planes that ours gives over bytes, for a frame of depth 8.
pub fn ours_over_bytes(frame: &Frame) -> Planes {
    let byte = |&sample: &u16| u8::try_from(sample).unwrap();
    let mut planes = frame.before.each_ref().map(|plane| plane.iter().map(byte).collect());
    for base in bases(frame) {
        let cells = cell_bytes(&words(frame, base));
        for at in passes(frame, base) {
            let (samples, window) = lent(frame, &mut planes, &at);
            let filtered = pass_bytes(samples, &window, &cells, &frame.frame, &at);
            assert_eq!(filtered, Ok(()), "{}, {at:?}", frame.name);
        }
    }
    planes.map(|plane: Vec<u8>| plane.into_iter().map(u16::from).collect())
}

/// The planes that the Rust gives, by its own level table, cells and pass.
#[cfg(oracle)]
pub fn by_the_rust(frame: &Frame) -> Planes {
    use crate::rust;
    use oracle::superblock_loop_filter::hook_row;

    let levels = rust::level_table(&frame.case);
    let mut planes = frame.before.clone();
    for base in bases(frame) {
        let part = Row { levels, ..frame.row(base) };
        let cells = rust::with_frame(&part, |frame| hook_row(frame, base as u32));
        for at in passes(frame, base) {
            let (samples, Window { width, height, stride, y_origin }) =
                lent(frame, &mut planes, &at);
            let (row, col) = (at.mi_row as u32, at.mi_col as u32);
            cells.pass(samples, stride, width, height, y_origin, at.plane, at.pass, row, col);
        }
    }
    planes
}

/// The first rows of the superblock rows.
pub fn bases(frame: &Frame) -> impl Iterator<Item = usize> {
    (0..frame.frame.mi_rows).step_by(8)
}

/// The passes of a superblock row: superblock by superblock, plane by plane, the vertical edges first.
pub fn passes(frame: &Frame, base: usize) -> impl Iterator<Item = Superblock> {
    let superblocks = (0..frame.frame.mi_cols).step_by(8);
    superblocks.flat_map(move |col| {
        [(0, 0), (0, 1), (1, 0), (1, 1), (2, 0), (2, 1)].map(|(plane, pass)| Superblock {
            mi_row: base,
            mi_col: col,
            plane,
            pass,
        })
    })
}

/// The plane's rows that a pass is lent: its superblock row and the eight rows above.
fn lent<'a, S>(
    frame: &Frame,
    planes: &'a mut [Vec<S>; 3],
    at: &Superblock,
) -> (&'a mut [S], Window) {
    let (width, rows) = plane_size(&frame.frame, at.plane);
    let (_, sub_y) = subsampling(&frame.frame, at.plane);
    let top = (8 * at.mi_row) >> sub_y;
    let (y_origin, end) = (top.saturating_sub(8), rows.min(top + (64 >> sub_y)));
    let window = Window { width, height: end - y_origin, stride: width, y_origin };
    (&mut planes[at.plane as usize][y_origin * width..end * width], window)
}

/// The first sample in which two lists of planes differ, for messages.
pub fn difference(frame: &Frame, a: &Planes, b: &Planes) -> Option<String> {
    (0..3).find_map(|plane| {
        let (a, b) = (&a[plane], &b[plane]);
        assert_eq!(a.len(), b.len(), "{}, plane {plane}", frame.name);
        let k = (0..a.len()).find(|&k| a[k] != b[k])?;
        let (width, _) = plane_size(&frame.frame, plane as u8);
        let (x, y) = (k % width, k / width);
        Some(format!("{}, plane {plane}, sample {x}, {y}: {} and {}", frame.name, a[k], b[k]))
    })
}
