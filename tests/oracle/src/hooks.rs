// Not from the Rust: ways to its private items, from inside superblock_loop_filter.

/// The lane kernel on one row of 16 samples, n = 1.
pub fn hook_line<T: Px>(
    row: &mut [T; 16],
    limit: u8,
    blimit: u8,
    thresh: u8,
    f_size: u8,
    depth: u8,
) {
    let st = FilterStrength { lvl: 1, limit, blimit, thresh };
    // q0 = 8, step = 1, along = 16 (not 1: selects the row-wise gather)
    filter_lanes(&mut row[..], 8, 1, 16, 1, st, f_size, depth);
}

/// The same through the other gather (HORIZONTAL = true): along = 1.
pub fn hook_line_h<T: Px>(
    row: &mut [T; 16],
    limit: u8,
    blimit: u8,
    thresh: u8,
    f_size: u8,
    depth: u8,
) {
    let st = FilterStrength { lvl: 1, limit, blimit, thresh };
    filter_lanes(&mut row[..], 8, 1, 1, 1, st, f_size, depth);
}

/// The same in 32-bit lanes.
pub fn hook_line_i32<T: Px>(
    row: &mut [T; 16],
    limit: u8,
    blimit: u8,
    thresh: u8,
    f_size: u8,
    depth: u8,
) {
    let st = FilterStrength { lvl: 1, limit, blimit, thresh };
    filter_lanes_i32::<T, false>(&mut row[..], 8, 1, 16, 1, st, f_size, depth);
}

/// The same in 32-bit lanes, through the other gather.
pub fn hook_line_i32_h<T: Px>(
    row: &mut [T; 16],
    limit: u8,
    blimit: u8,
    thresh: u8,
    f_size: u8,
    depth: u8,
) {
    let st = FilterStrength { lvl: 1, limit, blimit, thresh };
    filter_lanes_i32::<T, true>(&mut row[..], 8, 1, 1, 1, st, f_size, depth);
}

/// The lane kernel on n positions, as the pass calls it.
pub fn hook_lanes<T: Px>(
    data: &mut [T],
    q0: usize,
    step: usize,
    along: usize,
    n: usize,
    limit: u8,
    blimit: u8,
    thresh: u8,
    f_size: u8,
    depth: u8,
) {
    let st = FilterStrength { lvl: 1, limit, blimit, thresh };
    filter_lanes(data, q0, step, along, n, st, f_size, depth);
}

/// (block_mask[pass][sub], tx, uv_tx, skip_inter, lvl) of every cell LfRowCells::new makes.
pub type HookCell = ([[u8; 2]; 2], u8, u8, bool, u8);

pub struct HookRow(LfRowCells);

pub fn hook_row(frame: &SuperblockFilterFrame, base: u32) -> HookRow {
    HookRow(LfRowCells::new(frame, base))
}

impl HookRow {
    pub fn cells(&self) -> Vec<HookCell> {
        self.0.cells.iter().map(|c| (c.block_mask, c.tx, c.uv_tx, c.skip_inter, c.lvl)).collect()
    }

    /// A row of arbitrary cells (for words that no size makes).
    pub fn from_cells(
        cells: &[HookCell],
        base: u32,
        mi_cols: u32,
        mi_rows: u32,
        ssx: u8,
        ssy: u8,
        depth: u8,
        sharp: u8,
    ) -> Self {
        HookRow(LfRowCells {
            cells: cells
                .iter()
                .map(|&(block_mask, tx, uv_tx, skip_inter, lvl)| LfCell {
                    block_mask,
                    tx,
                    uv_tx,
                    skip_inter,
                    lvl,
                })
                .collect(),
            mi_row_base: base,
            mi_cols,
            mi_rows,
            subsampling_x: ssx,
            subsampling_y: ssy,
            bit_depth: depth,
            strengths: std::array::from_fn(|l| {
                crate::adaptive_filter_strength::strength_for_level(l as u8, sharp)
            }),
        })
    }

    pub fn pass<T: Px>(
        &self,
        data: &mut [T],
        stride: usize,
        width: usize,
        height: usize,
        y_origin: usize,
        plane: u8,
        pass: u8,
        row: u32,
        col: u32,
    ) {
        let mut w = PlaneWindow { data, stride, width, height, y_origin };
        superblock_loop_filter_cells(&mut w, &self.0, plane, pass, row, col);
    }
}

/// superblock_loop_filter_window_at, from the lists.
pub fn hook_pass_lists<T: Px>(
    data: &mut [T],
    stride: usize,
    width: usize,
    height: usize,
    y_origin: usize,
    frame: &SuperblockFilterFrame,
    base: u32,
    plane: u8,
    pass: u8,
    row: u32,
    col: u32,
) {
    let mut w = PlaneWindow { data, stride, width, height, y_origin };
    superblock_loop_filter_window_at(&mut w, frame, base, plane, pass, row, col);
}

pub fn hook_strength(lvl: u8, sharp: u8) -> FilterStrength {
    crate::adaptive_filter_strength::strength_for_level(lvl, sharp)
}
