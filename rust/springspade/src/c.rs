//! The C functions of `libspringspade.a`, as `include/springspade.h` has them.
//! Made by `cargo run -p border` in tests/ from the exported functions of crates/.

/// What a call answers: number and place 0 where it was accepted, else the number of the refusal and its place, which is
/// 0 where the number names none. Of several refusals the lowest number is given, with its smallest place. A refused
/// call writes nothing.
#[repr(C)]
#[derive(Debug, Clone, Copy, PartialEq, Eq, Default)]
pub struct Refusal {
    /// 0, or the number of the refusal.
    pub number: u32,
    /// Where, or 0.
    pub place: u32,
}

/// The answer of springspade_strength: number and place 0 with the three values, or the number of the refusal with
/// zeros. The values are those of 8 bits; springspade_line scales them to its bit_depth.
#[repr(C)]
#[derive(Debug, Clone, Copy, PartialEq, Eq, Default)]
pub struct Strength {
    /// 0, or the number of the refusal.
    pub number: u32,
    /// Where, or 0.
    pub place: u32,
    /// How much neighbours on one side of the edge may differ.
    pub limit: u8,
    /// How much the two sides may differ.
    pub blimit: u8,
    /// How much neighbours differ before only two samples are changed.
    pub thresh: u8,
}

/// The answer of springspade_edge: number and place 0 with the facts, or the number of the refusal with zeros.
#[repr(C)]
#[derive(Debug, Clone, Copy, PartialEq, Eq, Default)]
pub struct Edge {
    /// 0, or the number of the refusal.
    pub number: u32,
    /// Where, or 0.
    pub place: u32,
    /// The position's column in luma samples.
    pub x: usize,
    /// The position's row in luma samples.
    pub y: usize,
    /// The column of the cell that it reads, in units of 8 luma samples.
    pub loop_col: usize,
    /// The row of that cell.
    pub loop_row: usize,
    /// Whether it lies on an edge of its block.
    pub is_block_edge: bool,
    /// Whether it lies on an edge of its transform.
    pub is_tx_edge: bool,
    /// Whether its edge has a number that is a multiple of 8.
    pub is_32_edge: bool,
    /// Whether it lies inside the frame, and its edge is not the frame's left or upper border.
    pub on_screen: bool,
    /// Whether it is filtered, if its level is above 0.
    pub apply_filter: bool,
    /// With which filter_size of springspade_line.
    pub filter_size: u8,
}

/// What the pass reads of a cell.
#[repr(C)]
#[derive(Debug, Clone, Copy, PartialEq, Eq, Default)]
pub struct LfCell {
    /// Logarithm of the block's width in units of 8 luma samples, for a plane that is not subsampled across: 0 to 3.
    pub width0: u8,
    /// The same for a plane that is.
    pub width1: u8,
    /// Logarithm of the block's height, for a plane that is not subsampled down: 0 to 3.
    pub height0: u8,
    /// The same for a plane that is.
    pub height1: u8,
    /// The transform in plane 0: 0 (4x4) to 3 (32x32).
    pub tx: u8,
    /// The transform in planes 1 and 2.
    pub uvtx: u8,
    /// Whether the block is inter and has no coefficients: its inner transform edges are not filtered.
    pub skipped: bool,
    /// Whether the cell has a level.
    pub present: bool,
    /// 0 to 63; 0 where there is none.
    pub level: u8,
}

/// The frame's, the superblock's, and which plane and pass.
#[repr(C)]
#[derive(Debug, Clone, Copy, PartialEq, Eq, Default)]
pub struct PassNumbers {
    /// 0 to 7.
    pub sharpness: u8,
    /// 8, 10 or 12.
    pub bit_depth: u8,
    /// Whether the frame's planes 1 and 2 are subsampled across: 0 or 1.
    pub sub_x: u8,
    /// Whether they are subsampled down: 0 or 1.
    pub sub_y: u8,
    /// The frame's width in units of 8 luma samples, 1 to 8192.
    pub mi_cols: usize,
    /// The frame's height in the same units, 1 to 8192.
    pub mi_rows: usize,
    /// The superblock's first row, a multiple of 8 below mi_rows.
    pub mi_row: usize,
    /// The superblock's first column, a multiple of 8 below mi_cols.
    pub mi_col: usize,
    /// 0 for luma, 1 and 2 for chroma.
    pub plane: u8,
    /// 0 for vertical edges, 1 for horizontal ones.
    pub pass: u8,
}

/// A cell as LfCell, with a byte for each field.
#[repr(C)]
#[derive(Debug, Clone, Copy, PartialEq, Eq, Default)]
pub struct CellRecord {
    /// Logarithm of the block's width in units of 8 luma samples, for a plane that is not subsampled across: 0 to 3.
    pub width0: u8,
    /// The same for a plane that is.
    pub width1: u8,
    /// Logarithm of the block's height, for a plane that is not subsampled down: 0 to 3.
    pub height0: u8,
    /// The same for a plane that is.
    pub height1: u8,
    /// The transform in plane 0: 0 (4x4) to 3 (32x32).
    pub tx: u8,
    /// The transform in planes 1 and 2.
    pub uvtx: u8,
    /// 0 or 1. 1 where the block is inter and has no coefficients: its inner transform edges are not filtered.
    pub skipped: u8,
    /// 0 or 1: whether the cell has a level.
    pub present: u8,
    /// 0 to 63; 0 where there is none.
    pub level: u8,
}

/// The numbers of springspade_row: the frame's, and the row's.
#[repr(C)]
#[derive(Debug, Clone, Copy, PartialEq, Eq, Default)]
pub struct RowNumbers {
    /// 0 to 7.
    pub sharpness: u8,
    /// 8, 10 or 12.
    pub bit_depth: u8,
    /// Whether the frame's planes 1 and 2 are subsampled across: 0 or 1.
    pub sub_x: u8,
    /// Whether they are subsampled down: 0 or 1.
    pub sub_y: u8,
    /// The frame's width in units of 8 luma samples, 1 to 8192.
    pub mi_cols: usize,
    /// The frame's height in the same units, 1 to 8192.
    pub mi_rows: usize,
    /// The first row of the superblock row, a multiple of 8 below mi_rows.
    pub mi_row: usize,
}

unsafe extern "C" {
    /// Writes the frame's level table to the first 64 of levels, at segment * 8 + reference * 2 + mode type; the reference
    /// is 0 intra, 1 last, 2 golden, 3 altref. level: 0 to 63. The flags are those of the frame header. deltas: four by
    /// reference, then two by mode type. Where deltas_present has false the default holds: 1, 0, -1, -1, 0, 0.
    /// feature_enabled, feature_data: 32 each, at segment * 4 + feature.
    /// Refusals: 6 level above 63; 7 fewer than 6 deltas or deltas_present, 32 features or 64 levels.
    #[must_use]
    pub unsafe fn springspade_level_table(
        level: u8,
        delta_enabled: bool,
        delta_update: bool,
        deltas: *const i8,
        deltas_len: usize,
        deltas_present: *const bool,
        deltas_present_len: usize,
        seg_enabled: bool,
        abs_or_delta_update: bool,
        feature_enabled: *const bool,
        feature_enabled_len: usize,
        feature_data: *const i16,
        feature_data_len: usize,
        levels: *mut u8,
        levels_len: usize,
    ) -> Refusal;

    /// The strength of the line filter for a level, 0 to 63, and the frame's sharpness, 0 to 7.
    /// Refusals: 1 sharpness above 7; 6 level above 63.
    #[must_use]
    pub safe fn springspade_strength(level: u8, sharpness: u8) -> Strength;

    /// The mode type of a mode: 1 for NEARESTMV (10), NEARMV (11) and NEWMV (13), 0 for any other number.
    #[must_use]
    pub safe fn springspade_mode_type(y_mode: u8) -> usize;

    /// Filters 16 samples across an edge in place: p7 to p0, then q0 to q7. taps must point to 16 samples.
    /// bit_depth: 8, 10 or 12. filter_size: 0, 1 or 2; it changes at most 2, 3 or 7 samples on each side of the edge.
    /// limit, blimit, thresh: as springspade_strength gives them.
    /// Refusals: 2 bit_depth not 8, 10, 12; 13 sample >= 1 << bit_depth (place: its tap, 0 to 15); 15 filter_size above 2.
    #[must_use]
    pub safe fn springspade_line(
        taps: &mut [u16; 16],
        bit_depth: u8,
        filter_size: u8,
        limit: u8,
        blimit: u8,
        thresh: u8,
    ) -> Refusal;

    /// As springspade_line over bytes: the first 16 of taps, the bytes behind them are left. bit_depth: 8.
    /// Refusals: 2 bit_depth not 8; 7 fewer than 16 bytes; 15 filter_size above 2.
    #[must_use]
    pub unsafe fn springspade_line_bytes(
        taps: *mut u8,
        taps_len: usize,
        bit_depth: u8,
        filter_size: u8,
        limit: u8,
        blimit: u8,
        thresh: u8,
    ) -> Refusal;

    /// The facts of position i on an edge of the superblock at mi_row, mi_col. mi_cols, mi_rows, mi_row, mi_col count 8 luma
    /// samples. sub_x, sub_y, tx_size are those of the plane: sub_x, sub_y are 0 in plane 0. pass: 0 vertical, 1 horizontal.
    /// Pass 0 has edge below 16 >> sub_x and i below 64 >> sub_y, pass 1 has edge below 16 >> sub_y and i below 64 >> sub_x.
    /// The cell: mi_size 0 (4x4) to 12 (64x64), tx_size 0 (4x4) to 3 (32x32), skip 0 or 1, ref_frame 0 intra, above 0 inter.
    /// Refusals: 3 to 5 as springspade_row; 8 mi_size, tx_size or skip too large; 9 pass above 1; 10 mi_col no multiple of
    /// 8 below mi_cols; 16 edge or i too large.
    #[must_use]
    pub safe fn springspade_edge(
        sub_x: u8,
        sub_y: u8,
        mi_cols: usize,
        mi_rows: usize,
        mi_row: usize,
        mi_col: usize,
        pass: u8,
        edge: usize,
        i: usize,
        mi_size: u8,
        tx_size: u8,
        skip: u8,
        ref_frame: i32,
    ) -> Edge;

    /// Packs the cells of the superblock row at mi_row into the front of cells; words behind them are left.
    /// mi_row, mi_cols, mi_rows count 8 luma samples. The lists start at the row's first cell, row by row, mi_cols to a row,
    /// min(8, mi_rows - mi_row) rows: mi_sizes 0 (4x4) to 12 (64x64), tx_sizes 0 (4x4) to 3 (32x32), skips 0 or 1,
    /// ref_frames 0 intra, 1 last, 2 golden, 3 altref, segment_ids 0 to 7. levels: the 64 of springspade_level_table.
    /// Refusals: 1 sharpness above 7; 2 bit_depth not 8, 10, 12; 3 sub_x, sub_y above 1; 4 mi_cols, mi_rows 0 or above 8192;
    /// 5 mi_row no multiple of 8 below mi_rows; 6 level above 63 (place: entry); 7 short list; 8 bad cell (place: cell).
    #[must_use]
    pub unsafe fn springspade_row(
        mi_sizes: *const u8,
        mi_sizes_len: usize,
        tx_sizes: *const u8,
        tx_sizes_len: usize,
        skips: *const u8,
        skips_len: usize,
        ref_frames: *const i32,
        ref_frames_len: usize,
        y_modes: *const u8,
        y_modes_len: usize,
        segment_ids: *const u8,
        segment_ids_len: usize,
        levels: &[u8; 64],
        sharpness: u8,
        bit_depth: u8,
        sub_x: u8,
        sub_y: u8,
        mi_cols: usize,
        mi_rows: usize,
        mi_row: usize,
        cells: *mut u32,
        cells_len: usize,
    ) -> Refusal;

    /// The fields of a cell's word. Takes any word; its low 12 bits are not read.
    #[must_use]
    pub safe fn springspade_cell(word: u32) -> LfCell;

    /// Filters the superblock at mi_row, mi_col of a plane in place: vertical edges (pass 0) or horizontal ones (pass 1).
    /// samples: height rows of width samples, stride apart, the first being the plane's row y_origin; width and y_origin +
    /// height at most 65536, stride at most 131072. cells: as packed by springspade_row. mi_col is counted as mi_row.
    /// sub_x, sub_y: the frame's, also for plane 0. Refusals: 1 to 5 as springspade_row; 7 short cells; 9 plane above 2,
    /// pass above 1; 10 mi_col no multiple of 8 below mi_cols; 11 bad word (place: cell); 12 wrong window or short samples;
    /// 13 sample >= 1 << bit_depth (place: row * width + column); 14 cell without level (place: edge * 64 + position).
    #[must_use]
    pub unsafe fn springspade_pass(
        samples: *mut u16,
        samples_len: usize,
        cells: *const u32,
        cells_len: usize,
        width: usize,
        height: usize,
        stride: usize,
        y_origin: usize,
        sharpness: u8,
        bit_depth: u8,
        sub_x: u8,
        sub_y: u8,
        mi_cols: usize,
        mi_rows: usize,
        mi_row: usize,
        mi_col: usize,
        plane: u8,
        pass: u8,
    ) -> Refusal;

    /// As springspade_pass, without its tests and without an answer. The caller must hand over only what springspade_pass
    /// would accept; else memory outside samples and cells may be read or written.
    pub unsafe fn springspade_pass_unchecked(
        samples: *mut u16,
        samples_len: usize,
        cells: *const u32,
        cells_len: usize,
        width: usize,
        height: usize,
        stride: usize,
        y_origin: usize,
        sharpness: u8,
        bit_depth: u8,
        sub_x: u8,
        sub_y: u8,
        mi_cols: usize,
        mi_rows: usize,
        mi_row: usize,
        mi_col: usize,
        plane: u8,
        pass: u8,
    );

    /// As springspade_pass over bytes. bit_depth: 8. cells: the words of springspade_row as bytes, four to a cell, the most
    /// significant first. Refusals: those of springspade_pass; 2 bit_depth not 8; 7 fewer than four bytes for each cell of
    /// the row; never 13.
    #[must_use]
    pub unsafe fn springspade_pass_bytes(
        samples: *mut u8,
        samples_len: usize,
        cells: *const u8,
        cells_len: usize,
        width: usize,
        height: usize,
        stride: usize,
        y_origin: usize,
        sharpness: u8,
        bit_depth: u8,
        sub_x: u8,
        sub_y: u8,
        mi_cols: usize,
        mi_rows: usize,
        mi_row: usize,
        mi_col: usize,
        plane: u8,
        pass: u8,
    ) -> Refusal;

    /// As springspade_pass_bytes, without its tests and without an answer, and with cells as springspade_row packs them. The
    /// caller must hand over only what springspade_pass_bytes would accept with these words as bytes; else memory outside
    /// samples and cells may be read or written.
    pub unsafe fn springspade_pass_bytes_unchecked(
        samples: *mut u8,
        samples_len: usize,
        cells: *const u32,
        cells_len: usize,
        width: usize,
        height: usize,
        stride: usize,
        y_origin: usize,
        sharpness: u8,
        sub_x: u8,
        sub_y: u8,
        mi_cols: usize,
        mi_rows: usize,
        mi_row: usize,
        mi_col: usize,
        plane: u8,
        pass: u8,
    );

    /// As springspade_pass, with the numbers behind the window in a record.
    #[must_use]
    pub unsafe fn springspade_pass_window(
        samples: *mut u16,
        samples_len: usize,
        cells: *const u32,
        cells_len: usize,
        width: usize,
        height: usize,
        stride: usize,
        y_origin: usize,
        numbers: PassNumbers,
    ) -> Refusal;

    /// As springspade_pass, over cell records in place of words, with the numbers behind the window in a record.
    /// Refusal 11 is also for a record with a field too large (place: record). Needs somewhat over 256 KiB of stack.
    #[must_use]
    pub unsafe fn springspade_pass_records(
        samples: *mut u16,
        samples_len: usize,
        records: *const CellRecord,
        records_len: usize,
        width: usize,
        height: usize,
        stride: usize,
        y_origin: usize,
        numbers: PassNumbers,
    ) -> Refusal;

    /// As springspade_row, into cell records in place of words, with the numbers in a record.
    /// Records behind the row's cells are left. Needs somewhat over 256 KiB of stack.
    #[must_use]
    pub unsafe fn springspade_row_records(
        mi_sizes: *const u8,
        mi_sizes_len: usize,
        tx_sizes: *const u8,
        tx_sizes_len: usize,
        skips: *const u8,
        skips_len: usize,
        ref_frames: *const i32,
        ref_frames_len: usize,
        y_modes: *const u8,
        y_modes_len: usize,
        segment_ids: *const u8,
        segment_ids_len: usize,
        levels: &[u8; 64],
        numbers: RowNumbers,
        records: *mut CellRecord,
        records_len: usize,
    ) -> Refusal;

    /// Writes the runs that a pass would filter to the front of text, or "refused N place P" where it would be refused.
    /// sheet: a header of 8 bytes, then the words of the superblock row's cells, all with the most significant byte first.
    /// Header, from its highest bit on: mi_cols 14 bits, mi_rows 14, sub_x 1, sub_y 1, sharpness 3, bit_depth 2 (0, 1, 2 for
    /// 8, 10, 12), plane 2, pass 1, mi_row / 8 10, mi_col / 8 10, zeros 6. Refusal 17: zeros not 0, or mi_cols above 1024.
    /// Returns how many bytes were written, or 0 where text has fewer than 2048 bytes and is left as it was.
    #[must_use]
    pub unsafe fn springspade_sheet(
        sheet: *const u8,
        sheet_len: usize,
        text: *mut u8,
        text_len: usize,
    ) -> usize;
}
