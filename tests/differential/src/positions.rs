//! The decided positions of a pass, by document 01's section on cells and edges, and the step of each.

use crate::cells::unpacked;
use crate::passes::Pass;
use springspade::{Cell, Superblock, Window};

/// A decided position, and what is asked of the line filter there.
#[derive(Debug, Clone, Copy, PartialEq, Eq)]
pub struct Position {
    pub edge: usize,
    pub i: usize,
    /// The plane's column and row of q0.
    pub x: usize,
    pub y: usize,
    pub cell: Cell,
    pub size: u8,
}

/// What is decided in an accepted pass, edge by edge.
pub fn decided(pass: &Pass) -> Vec<Position> {
    let (sub_x, sub_y) = pass.subsampling();
    let (sub, along) = if pass.at.pass == 0 { (sub_x, sub_y) } else { (sub_y, sub_x) };
    let grid = (0..16 >> sub).flat_map(|edge| (0..64 >> along).map(move |i| (edge, i)));
    grid.filter_map(|(edge, i)| position(pass, edge, i)).collect()
}

fn position(pass: &Pass, edge: usize, i: usize) -> Option<Position> {
    let Superblock { mi_row: row, mi_col: col, plane, .. } = pass.at;
    let (mi_cols, mi_rows) = (pass.frame.mi_cols, pass.frame.mi_rows);
    let (sub_x, sub_y) = pass.subsampling();
    let vertical = pass.at.pass == 0;
    // Inside the superblock, in samples of the plane; then in luma samples of the frame.
    let (right, down) = if vertical { (4 * edge, i) } else { (i, 4 * edge) };
    let (x, y) = (8 * col + (right << sub_x), 8 * row + (down << sub_y));
    let (luma, sub) = if vertical { (x, sub_x) } else { (y, sub_y) };
    if luma == 0 || x >= 8 * mi_cols || y >= 8 * mi_rows {
        return None;
    }
    // Rounded down to the subsampling grid.
    let (column, line) =
        (x / 8 - x / 8 % (1 + sub_x as usize), y / 8 - y / 8 % (1 + sub_y as usize));
    let (cell, _) = unpacked(pass.cells[(line - row) * mi_cols + column]);
    let transform = if plane == 0 { cell.tx } else { cell.uvtx };
    let [width, height] = [[cell.width0, cell.width1], [cell.height0, cell.height1]]
        .map(|logarithms| 8 << logarithms[sub as usize]);
    let is_block_edge = luma % if vertical { width } else { height } == 0;
    let last_column = x / 8 == mi_cols - 1;
    let has_none = !vertical && sub_x == 1 && mi_cols % 2 == 1 && edge % 2 == 1 && last_column;
    let is_transform_edge = !has_none && edge.is_multiple_of(1 << transform);
    if !is_block_edge && (!is_transform_edge || cell.skipped) {
        return None;
    }
    let at_last = if vertical { last_column } else { y / 8 == mi_rows - 1 };
    let size = match transform {
        0 if edge == 0 || edge == 8 => 1,
        2.. if sub == 1 && at_last => 1,
        _ => transform.min(2),
    };
    Some(Position { edge, i, x: x >> sub_x, y: y >> sub_y, cell, size })
}

/// The smallest place of a decided position whose cell has no level.
pub fn levelless(pass: &Pass) -> Option<u32> {
    let positions = decided(pass);
    let places = positions.iter().filter(|at| !at.cell.present).map(|at| 64 * at.edge + at.i);
    places.min().map(|place| place as u32)
}

/// Where p7 to q7 of a position stand, some of them perhaps outside the plane.
pub fn taps(pass: &Pass, at: &Position) -> [(i64, i64); 16] {
    let (right, down) = if pass.at.pass == 0 { (1, 0) } else { (0, 1) };
    std::array::from_fn(|k| {
        let k = k as i64 - 8;
        (at.x as i64 + k * right, at.y as i64 + k * down)
    })
}

/// Whether the window has a sample at this column and row of the plane.
pub fn is_inside(window: &Window, (x, y): (i64, i64)) -> bool {
    let row = y - window.y_origin as i64;
    (0..window.width as i64).contains(&x) && (0..window.height as i64).contains(&row)
}

/// Reads a position's line out of the lent samples; past the window it reads the border.
pub fn read(pass: &Pass, samples: &[u16], at: &Position) -> [u16; 16] {
    let Window { width, height, stride, y_origin } = pass.window;
    taps(pass, at).map(|(x, y)| {
        let column = x.clamp(0, width as i64 - 1) as usize;
        let row = (y - y_origin as i64).clamp(0, height as i64 - 1) as usize;
        samples[row * stride + column]
    })
}

/// Filters one position. What lies past the window is dropped, and level 0 writes nothing.
pub fn step(pass: &Pass, samples: &mut [u16], at: &Position) {
    if at.cell.level == 0 {
        return;
    }
    let mut line = read(pass, samples, at);
    let strength = springspade::strength(at.cell.level, pass.frame.sharpness).unwrap();
    springspade::line(&mut line, pass.frame.bit_depth, at.size, strength).unwrap();
    for (place, sample) in taps(pass, at).into_iter().zip(line) {
        if is_inside(&pass.window, place) {
            let (x, row) = (place.0 as usize, place.1 as usize - pass.window.y_origin);
            samples[row * pass.window.stride + x] = sample;
        }
    }
}

/// The lent samples after the steps of all decided positions, edge by edge.
pub fn filtered(pass: &Pass) -> Vec<u16> {
    let mut samples = pass.samples.clone();
    decided(pass).iter().for_each(|at| step(pass, &mut samples, at));
    samples
}
