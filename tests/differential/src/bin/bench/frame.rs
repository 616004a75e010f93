//! All passes over a large frame of libvpx's, superblock row by superblock row, where it is at hand.

use crate::planes::Planes;
use crate::row::row;
use crate::superblocks::{Superblocks, Way};
use differential::libvpx::{self, Frame, plane_size};
use differential::passes::subsampling;
use springspade::Window;

const RUNS: usize = 50;

pub fn rows() {
    let Some(frame) = libvpx::folder().and_then(|folder| libvpx::large_frame(&folder)) else {
        println!("{} is not at hand", libvpx::LARGE);
        return;
    };
    let rows = superblock_rows(&frame);
    let depth = frame.frame.bit_depth;
    let luma = 64 * frame.frame.mi_cols * frame.frame.mi_rows;
    let name = format!("real frame, depth {depth}");
    beside_rust(&format!("work, {name}"), &rows, luma, Superblocks::unchecked);
    if depth == 8 {
        beside_rust(&format!("bytes, work, {name}"), &rows, luma, Superblocks::unchecked_bytes);
    }
}

/// A row of the table for one way of ours.
fn beside_rust<S: Copy + Into<u16>>(name: &str, rows: &[Superblocks], luma: usize, way: Way<S>) {
    let mut ours = vec![[const { Vec::new() }; 3]; rows.len()];
    let mut rust = vec![Planes::default(); rows.len()];
    row(name, RUNS, luma, || all(rows, way, &mut ours), || all(rows, Superblocks::rust, &mut rust));
    for ((row, ours), rust) in rows.iter().zip(&ours).zip(&rust) {
        row.compare(name, ours);
        row.compare(name, rust);
    }
}

/// Nanoseconds of all superblock rows.
fn all<S>(rows: &[Superblocks], way: Way<S>, planes: &mut [[Vec<S>; 3]]) -> f64 {
    rows.iter().zip(planes).map(|(row, planes)| way(row, planes)).sum()
}

/// Each with the rows above that it changes and those below that it reads, as they are before the filter.
fn superblock_rows(frame: &Frame) -> Vec<Superblocks> {
    let bases = (0..frame.frame.mi_rows).step_by(8);
    bases
        .map(|base| {
            let windows = [0, 1, 2].map(|plane| window(frame, base, plane));
            let before = [0, 1, 2].map(|plane: usize| {
                let Window { width, height, y_origin, .. } = windows[plane];
                frame.before[plane][y_origin * width..(y_origin + height) * width].to_vec()
            });
            Superblocks::new(&frame.row(base), 0..frame.frame.mi_cols, windows, before)
        })
        .collect()
}

fn window(frame: &Frame, base: usize, plane: u8) -> Window {
    let (_, sub_y) = subsampling(&frame.frame, plane);
    let (width, height) = plane_size(&frame.frame, plane);
    let y_origin = ((8 * base) >> sub_y).saturating_sub(8);
    let end = height.min(((8 * base + 64) >> sub_y) + 8);
    Window { width, height: end - y_origin, stride: width, y_origin }
}
