//! The Rust's answers.

mod pass;
mod runs;

pub use pass::{cells, over, pass, pass_bytes, pass_lists};
pub use runs::runs;

use crate::{cases::Case, lines::Line, rows::Row};
use oracle::filter_size::filter_size;
use oracle::frame_buf::Px;
use oracle::header::{LoopFilterParams, SegmentationParams};
use oracle::loop_filter::{LvlLookup, loop_filter_frame_init, resolve_lf_deltas};
use oracle::superblock_filter::{SuperblockFilterMi, superblock_filter_edge};
use oracle::superblock_loop_filter::{HookCell, SuperblockFilterFrame, hook_row};
use oracle::superblock_loop_filter::{hook_line, hook_line_h, hook_line_i32, hook_line_i32_h};
use springspade::{Cell, EdgeFacts, Position, Strength};

pub fn params(case: &Case) -> (LoopFilterParams, SegmentationParams) {
    let lf = case.loop_filter();
    let lf = LoopFilterParams {
        level: lf.level,
        sharpness: 0,
        delta_enabled: lf.delta_enabled,
        delta_update: lf.delta_update,
        ref_deltas: lf.ref_deltas,
        mode_deltas: lf.mode_deltas,
    };
    let seg = SegmentationParams {
        enabled: case.seg_enabled,
        update_map: false,
        tree_probs: None,
        temporal_update: false,
        pred_prob: None,
        update_data: true,
        abs_or_delta_update: case.abs_or_delta_update,
        feature_enabled: case.feature_enabled,
        feature_data: case.feature_data,
    };
    (lf, seg)
}

#[inline]
pub fn lookup(lf: &LoopFilterParams, seg: &SegmentationParams) -> LvlLookup {
    let (ref_deltas, mode_deltas) = resolve_lf_deltas(lf);
    loop_filter_frame_init(lf, seg, ref_deltas, mode_deltas)
}

pub fn level_table(case: &Case) -> [u8; 64] {
    let (lf, seg) = params(case);
    lookup(&lf, &seg).levels.as_flattened().as_flattened().try_into().unwrap()
}

/// One line in the lanes that the Rust takes for its depth, then in 32-bit lanes, by each gather.
pub fn line(line: &Line) -> [[u16; 16]; 4] {
    line_over(line)
}

/// The same over samples of another type.
pub fn line_over<S: Px>(line: &Line) -> [[S; 16]; 4] {
    let Strength { limit, blimit, thresh } = line.strength;
    [hook_line, hook_line_h, hook_line_i32, hook_line_i32_h].map(|way| {
        let mut taps = line.taps.map(|tap| S::put(tap.into()));
        way(&mut taps, limit, blimit, thresh, line.size, line.depth);
        taps
    })
}

/// Hands over the row in the Rust's types.
pub fn with_frame<T>(row: &Row, then: impl FnOnce(&SuperblockFilterFrame) -> T) -> T {
    let skips: Vec<bool> = row.blocks.skips.iter().map(|&skip| skip != 0).collect();
    let mut lookup = LvlLookup::zeros();
    lookup.levels.as_flattened_mut().as_flattened_mut().copy_from_slice(&row.levels);
    then(&SuperblockFilterFrame {
        mi_sizes: &row.blocks.mi_sizes,
        tx_sizes: &row.blocks.tx_sizes,
        skips: &skips,
        ref_frames_0: &row.blocks.ref_frames,
        y_modes: &row.blocks.y_modes,
        segment_ids: &row.blocks.segment_ids,
        mi_cols: row.frame.mi_cols as u32,
        mi_rows: row.frame.mi_rows as u32,
        subsampling_x: row.frame.sub_x,
        subsampling_y: row.frame.sub_y,
        loop_filter_sharpness: row.frame.sharpness,
        bit_depth: row.frame.bit_depth,
        lvl_lookup: &lookup,
    })
}

/// The row's cells, without the empty ones that the Rust keeps behind them.
pub fn row(row: &Row) -> Vec<Cell> {
    let cells = with_frame(row, |frame| hook_row(frame, row.base as u32).cells());
    cells.into_iter().take(row.cells()).map(cell).collect()
}

/// The Rust keeps a size as a mask, 8 << logarithm less 1, and an absent level as 255.
fn cell((block_mask, tx, uvtx, skipped, lvl): HookCell) -> Cell {
    let [[width0, width1], [height0, height1]] = block_mask.map(|pass| {
        pass.map(|mask| (0..4).find(|&log| mask == (8 << log) - 1).expect("a mask of four"))
    });
    let present = lvl != 255;
    let level = if present { lvl } else { 0 };
    Cell { width0, width1, height0, height1, tx, uvtx, skipped, present, level }
}

/// The facts of a position, with the filter size.
pub fn edge(at: &Position) -> EdgeFacts {
    let (mi_cols, mi_rows) = (at.mi_cols as u32, at.mi_rows as u32);
    let mi = SuperblockFilterMi {
        mi_size: at.mi_size,
        tx_sz: at.tx_size,
        skip: at.skip != 0,
        ref_frame_0: at.ref_frame,
    };
    let e = superblock_filter_edge(
        at.pass,
        at.mi_row as u32,
        at.mi_col as u32,
        at.edge as u32,
        at.i as u32,
        at.sub_x.into(),
        at.sub_y.into(),
        mi_cols,
        mi_rows,
        &mi,
    );
    let size = filter_size(
        at.tx_size,
        e.is_32_edge,
        at.pass,
        e.x,
        e.y,
        at.sub_x,
        at.sub_y,
        mi_cols,
        mi_rows,
    );
    EdgeFacts {
        x: e.x as usize,
        y: e.y as usize,
        loop_col: e.loop_col as usize,
        loop_row: e.loop_row as usize,
        is_block_edge: e.is_block_edge,
        is_tx_edge: e.is_tx_edge,
        is_32_edge: e.is_32_edge,
        on_screen: e.on_screen,
        apply_filter: e.apply_filter,
        filter_size: size,
    }
}
