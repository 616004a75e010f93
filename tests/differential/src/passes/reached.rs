//! What a pass reaches: the cases that random passes are made for.

use super::Pass;
use crate::cells::unpacked;
use crate::lines::{Arm, Line};
use crate::positions::{Position, decided, is_inside, levelless, read, step, taps};
use springspade::Frame;
use std::collections::BTreeMap;

/// How often each case was met, by its name. One that was not met has 0.
#[derive(Debug, Clone, Default)]
pub struct Reached(pub BTreeMap<String, usize>);

impl Reached {
    fn count(&mut self, name: &str, holds: bool) {
        *self.0.entry(name.to_string()).or_default() += usize::from(holds);
    }
}

/// Where the window stands, and what is lent around it.
fn windows(reached: &mut Reached, pass: &Pass, positions: &[Position]) {
    let (sub_x, sub_y) = pass.subsampling();
    let (left, top) = ((8 * pass.at.mi_col) >> sub_x, (8 * pass.at.mi_row) >> sub_y);
    let window = &pass.window;
    let end = window.y_origin + window.height;
    reached.count("window left of the superblock", window.width <= left);
    reached.count("window above the superblock", end <= top);
    reached.count("window below the superblock", window.y_origin >= top + (64 >> sub_y));
    let is_read = |at: &Position| taps(pass, at).iter().any(|&tap| is_inside(window, tap));
    reached.count("window reached by no position", !positions.iter().any(is_read));
    reached
        .count("window of one sample in width or height", window.width == 1 || window.height == 1);
    reached.count("window of 12 columns and less", window.width <= 12);
    reached.count("eight rows above the superblock", top >= 8 && window.y_origin == top - 8);
    reached.count("y origin above 60,000", window.y_origin > 60_000);
    reached.count("width above 60,000", window.width > 60_000);
    reached.count("samples between width and stride", window.stride > window.width);
    let lent = (window.height - 1) * window.stride + window.width;
    reached.count("samples behind the window", pass.samples.len() > lent);
}

/// What the frame and its cells are like.
fn frames(reached: &mut Reached, pass: &Pass, positions: &[Position]) {
    let (frame, at) = (&pass.frame, &pass.at);
    reached.count("frame ends inside the superblock, right", frame.mi_cols < at.mi_col + 8);
    reached.count("frame ends inside the superblock, below", frame.mi_rows < at.mi_row + 8);
    reached.count("words behind the row's", pass.cells.len() > pass.row_cells());
    reached.count("a column without transform edges", has_no_transform_edges(pass));
    let absent = pass.cells[..pass.row_cells()].iter().any(|word| word >> 18 & 1 == 0);
    reached.count("accepted with a cell without level", absent && levelless(pass).is_none());
    let outside = |at: &Position| !is_inside(&pass.window, (at.x as i64, at.y as i64));
    let first = positions.iter().find(|at| !at.cell.present);
    reached.count("without level", first.is_some());
    reached.count("without level, outside the window", first.is_some_and(outside));
    let (sub_x, sub_y) = pass.subsampling();
    let halved = if at.pass == 0 { sub_y } else { sub_x } == 1;
    let late = first.is_some_and(|at| at.edge > 0);
    reached.count("without level, at a later edge of 32 positions", halved && late);
}

/// Whether the rule of odd mi_cols takes an edge away from a cell of the last column.
fn has_no_transform_edges(pass: &Pass) -> bool {
    let Frame { mi_cols, .. } = pass.frame;
    let of_rule = pass.at.pass == 1 && pass.subsampling().0 == 1 && mi_cols % 2 == 1;
    let last = pass.cells[..pass.row_cells()].iter().skip(mi_cols - 1).step_by(mi_cols);
    let mut cells = last.map(|&word| unpacked(word).0);
    of_rule && pass.at.mi_col + 8 >= mi_cols && cells.any(|cell| cell.uvtx == 0 && !cell.skipped)
}

/// What one position is like.
fn position(reached: &mut Reached, pass: &Pass, at: &Position) {
    let (sub_x, sub_y) = pass.subsampling();
    let transform = if pass.at.plane == 0 { at.cell.tx } else { at.cell.uvtx };
    reached.count("level 0", at.cell.level == 0);
    reached.count("skipped, at a block edge", at.cell.skipped);
    reached.count("size 2 made 1 at the last column or row", transform >= 2 && at.size == 1);
    reached.count("size 1 of transform 0", transform == 0 && at.size == 1);
    let odd = |at: usize, sub: u8| sub == 1 && at / 4 % 2 == 1;
    reached.count("reads the cell to its left", odd(at.x, sub_x));
    reached.count("reads the cell above it", odd(at.y, sub_y));
}

/// What the line filter does at a position, in the window that the ones before it left.
fn line(reached: &mut Reached, pass: &Pass, samples: &mut [u16], at: &Position) {
    let depth = pass.frame.bit_depth;
    let before = read(pass, samples, at);
    let strength = springspade::strength(at.cell.level, pass.frame.sharpness).unwrap();
    let arm = Line { depth, size: at.size, strength, taps: before }.arm();
    reached
        .count(&format!("{arm:?}, depth {depth}, pass {}, size {}", pass.at.pass, at.size), true);
    step(pass, samples, at);
    let after = read(pass, samples, at);
    let inside = taps(pass, at).map(|tap| is_inside(&pass.window, tap));
    let changed = |k: usize| inside[k] && before[k] != after[k];
    let [p0, q0] = [inside[7], inside[8]];
    reached.count("p side changed, q0 past the window", !q0 && (0..8).any(changed));
    reached.count("q side changed, p0 past the window", !p0 && (8..16).any(changed));
    reached.count("p side cut by the window", p0 && !inside[0] && (0..8).any(changed));
    reached.count("q side cut by the window", q0 && !inside[15] && (8..16).any(changed));
    let wide = arm == Arm::Fourteen && (0..16).any(changed);
    let [p7, q7] = [inside[0], inside[15]];
    let side = if pass.at.pass == 0 { ["left of", "right of"] } else { ["above", "below"] };
    reached.count(&format!("fourteen, p7 {} the window", side[0]), wide && !p7);
    reached.count(&format!("fourteen, q7 {} the window", side[1]), wide && !q7);
    let top = (1 << depth) - 1;
    reached.count("a changed sample at an end of its range", {
        (0..16).any(|k| changed(k) && (after[k] == 0 || after[k] == top))
    });
}

/// Counts what a pass reaches. It is refused for nothing but a cell without level.
pub fn count(reached: &mut Reached, pass: &Pass) {
    let positions = decided(pass);
    windows(reached, pass, &positions);
    frames(reached, pass, &positions);
    if levelless(pass).is_some() {
        return;
    }
    let mut samples = pass.samples.clone();
    for at in &positions {
        position(reached, pass, at);
        if at.cell.level > 0 {
            line(reached, pass, &mut samples, at);
        }
    }
    let (frame, at) = (&pass.frame, &pass.at);
    let subsampling = format!("subsampling {} {}", frame.sub_x, frame.sub_y);
    let kind =
        format!("{subsampling}, depth {}, plane {}, pass {}", frame.bit_depth, at.plane, at.pass);
    reached.count(&format!("changed, {kind}"), samples != pass.samples);
    let mut falling = pass.samples.clone();
    positions.iter().rev().for_each(|at| step(pass, &mut falling, at));
    reached.count("edges in falling order give another window", falling != samples);
}
