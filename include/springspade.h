/* The loop filter of a VP9 decoder: the functions of libspringspade.a.
   A list is a pointer and a number, its name with `_len`: so many entries may be read there, and written where the
   pointer is not to const. Lists of one call must not overlap. No function keeps a pointer or a state of its own, so
   calls may run on several threads.
   Made by `cargo run -p border` in tests/ from the exported functions of crates/. */
#ifndef SPRINGSPADE_H
#define SPRINGSPADE_H

#include <stdbool.h>
#include <stddef.h>
#include <stdint.h>

#ifdef __cplusplus
extern "C" {
#endif

#ifdef __GNUC__
#define SPRINGSPADE_MUST_USE __attribute__((warn_unused_result))
#else
#define SPRINGSPADE_MUST_USE
#endif

/* What a call answers: number and place 0 where it was accepted, else the number of the refusal and its place, which is
   0 where the number names none. Of several refusals the lowest number is given, with its smallest place. A refused
   call writes nothing. */
typedef struct SpringspadeRefusal {
    /* 0, or the number of the refusal. */
    uint32_t number;
    /* Where, or 0. */
    uint32_t place;
} SpringspadeRefusal;

/* The answer of springspade_strength: number and place 0 with the three values, or the number of the refusal with
   zeros. The values are those of 8 bits; springspade_line scales them to its bit_depth. */
typedef struct SpringspadeStrength {
    /* 0, or the number of the refusal. */
    uint32_t number;
    /* Where, or 0. */
    uint32_t place;
    /* How much neighbours on one side of the edge may differ. */
    uint8_t limit;
    /* How much the two sides may differ. */
    uint8_t blimit;
    /* How much neighbours differ before only two samples are changed. */
    uint8_t thresh;
} SpringspadeStrength;

/* The answer of springspade_edge: number and place 0 with the facts, or the number of the refusal with zeros. */
typedef struct SpringspadeEdge {
    /* 0, or the number of the refusal. */
    uint32_t number;
    /* Where, or 0. */
    uint32_t place;
    /* The position's column in luma samples. */
    size_t x;
    /* The position's row in luma samples. */
    size_t y;
    /* The column of the cell that it reads, in units of 8 luma samples. */
    size_t loop_col;
    /* The row of that cell. */
    size_t loop_row;
    /* Whether it lies on an edge of its block. */
    bool is_block_edge;
    /* Whether it lies on an edge of its transform. */
    bool is_tx_edge;
    /* Whether its edge has a number that is a multiple of 8. */
    bool is_32_edge;
    /* Whether it lies inside the frame, and its edge is not the frame's left or upper border. */
    bool on_screen;
    /* Whether it is filtered, if its level is above 0. */
    bool apply_filter;
    /* With which filter_size of springspade_line. */
    uint8_t filter_size;
} SpringspadeEdge;

/* What the pass reads of a cell. */
typedef struct SpringspadeLfCell {
    /* Logarithm of the block's width in units of 8 luma samples, for a plane that is not subsampled across: 0 to 3. */
    uint8_t width0;
    /* The same for a plane that is. */
    uint8_t width1;
    /* Logarithm of the block's height, for a plane that is not subsampled down: 0 to 3. */
    uint8_t height0;
    /* The same for a plane that is. */
    uint8_t height1;
    /* The transform in plane 0: 0 (4x4) to 3 (32x32). */
    uint8_t tx;
    /* The transform in planes 1 and 2. */
    uint8_t uvtx;
    /* Whether the block is inter and has no coefficients: its inner transform edges are not filtered. */
    bool skipped;
    /* Whether the cell has a level. */
    bool present;
    /* 0 to 63; 0 where there is none. */
    uint8_t level;
} SpringspadeLfCell;

/* The frame's, the superblock's, and which plane and pass. */
typedef struct SpringspadePassNumbers {
    /* 0 to 7. */
    uint8_t sharpness;
    /* 8, 10 or 12. */
    uint8_t bit_depth;
    /* Whether the frame's planes 1 and 2 are subsampled across: 0 or 1. */
    uint8_t sub_x;
    /* Whether they are subsampled down: 0 or 1. */
    uint8_t sub_y;
    /* The frame's width in units of 8 luma samples, 1 to 8192. */
    size_t mi_cols;
    /* The frame's height in the same units, 1 to 8192. */
    size_t mi_rows;
    /* The superblock's first row, a multiple of 8 below mi_rows. */
    size_t mi_row;
    /* The superblock's first column, a multiple of 8 below mi_cols. */
    size_t mi_col;
    /* 0 for luma, 1 and 2 for chroma. */
    uint8_t plane;
    /* 0 for vertical edges, 1 for horizontal ones. */
    uint8_t pass;
} SpringspadePassNumbers;

/* A cell as LfCell, with a byte for each field. */
typedef struct SpringspadeCellRecord {
    /* Logarithm of the block's width in units of 8 luma samples, for a plane that is not subsampled across: 0 to 3. */
    uint8_t width0;
    /* The same for a plane that is. */
    uint8_t width1;
    /* Logarithm of the block's height, for a plane that is not subsampled down: 0 to 3. */
    uint8_t height0;
    /* The same for a plane that is. */
    uint8_t height1;
    /* The transform in plane 0: 0 (4x4) to 3 (32x32). */
    uint8_t tx;
    /* The transform in planes 1 and 2. */
    uint8_t uvtx;
    /* 0 or 1. 1 where the block is inter and has no coefficients: its inner transform edges are not filtered. */
    uint8_t skipped;
    /* 0 or 1: whether the cell has a level. */
    uint8_t present;
    /* 0 to 63; 0 where there is none. */
    uint8_t level;
} SpringspadeCellRecord;

/* The numbers of springspade_row: the frame's, and the row's. */
typedef struct SpringspadeRowNumbers {
    /* 0 to 7. */
    uint8_t sharpness;
    /* 8, 10 or 12. */
    uint8_t bit_depth;
    /* Whether the frame's planes 1 and 2 are subsampled across: 0 or 1. */
    uint8_t sub_x;
    /* Whether they are subsampled down: 0 or 1. */
    uint8_t sub_y;
    /* The frame's width in units of 8 luma samples, 1 to 8192. */
    size_t mi_cols;
    /* The frame's height in the same units, 1 to 8192. */
    size_t mi_rows;
    /* The first row of the superblock row, a multiple of 8 below mi_rows. */
    size_t mi_row;
} SpringspadeRowNumbers;

/* Writes the frame's level table to the first 64 of levels, at segment * 8 + reference * 2 + mode type; the reference
   is 0 intra, 1 last, 2 golden, 3 altref. level: 0 to 63. The flags are those of the frame header. deltas: four by
   reference, then two by mode type. Where deltas_present has false the default holds: 1, 0, -1, -1, 0, 0.
   feature_enabled, feature_data: 32 each, at segment * 4 + feature.
   Refusals: 6 level above 63; 7 fewer than 6 deltas or deltas_present, 32 features or 64 levels. */
SPRINGSPADE_MUST_USE SpringspadeRefusal springspade_level_table(
    uint8_t level,
    bool delta_enabled,
    bool delta_update,
    const int8_t *deltas, size_t deltas_len,
    const bool *deltas_present, size_t deltas_present_len,
    bool seg_enabled,
    bool abs_or_delta_update,
    const bool *feature_enabled, size_t feature_enabled_len,
    const int16_t *feature_data, size_t feature_data_len,
    uint8_t *levels, size_t levels_len);

/* The strength of the line filter for a level, 0 to 63, and the frame's sharpness, 0 to 7.
   Refusals: 1 sharpness above 7; 6 level above 63. */
SPRINGSPADE_MUST_USE SpringspadeStrength springspade_strength(uint8_t level, uint8_t sharpness);

/* The mode type of a mode: 1 for NEARESTMV (10), NEARMV (11) and NEWMV (13), 0 for any other number. */
SPRINGSPADE_MUST_USE size_t springspade_mode_type(uint8_t y_mode);

/* Filters 16 samples across an edge in place: p7 to p0, then q0 to q7. taps must point to 16 samples.
   bit_depth: 8, 10 or 12. filter_size: 0, 1 or 2; it changes at most 2, 3 or 7 samples on each side of the edge.
   limit, blimit, thresh: as springspade_strength gives them.
   Refusals: 2 bit_depth not 8, 10, 12; 13 sample >= 1 << bit_depth (place: its tap, 0 to 15); 15 filter_size above 2. */
SPRINGSPADE_MUST_USE SpringspadeRefusal springspade_line(
    uint16_t taps[16],
    uint8_t bit_depth,
    uint8_t filter_size,
    uint8_t limit,
    uint8_t blimit,
    uint8_t thresh);

/* As springspade_line over bytes: the first 16 of taps, the bytes behind them are left. bit_depth: 8.
   Refusals: 2 bit_depth not 8; 7 fewer than 16 bytes; 15 filter_size above 2. */
SPRINGSPADE_MUST_USE SpringspadeRefusal springspade_line_bytes(
    uint8_t *taps, size_t taps_len,
    uint8_t bit_depth,
    uint8_t filter_size,
    uint8_t limit,
    uint8_t blimit,
    uint8_t thresh);

/* The facts of position i on an edge of the superblock at mi_row, mi_col. mi_cols, mi_rows, mi_row, mi_col count 8 luma
   samples. sub_x, sub_y, tx_size are those of the plane: sub_x, sub_y are 0 in plane 0. pass: 0 vertical, 1 horizontal.
   Pass 0 has edge below 16 >> sub_x and i below 64 >> sub_y, pass 1 has edge below 16 >> sub_y and i below 64 >> sub_x.
   The cell: mi_size 0 (4x4) to 12 (64x64), tx_size 0 (4x4) to 3 (32x32), skip 0 or 1, ref_frame 0 intra, above 0 inter.
   Refusals: 3 to 5 as springspade_row; 8 mi_size, tx_size or skip too large; 9 pass above 1; 10 mi_col no multiple of
   8 below mi_cols; 16 edge or i too large. */
SPRINGSPADE_MUST_USE SpringspadeEdge springspade_edge(
    uint8_t sub_x,
    uint8_t sub_y,
    size_t mi_cols,
    size_t mi_rows,
    size_t mi_row,
    size_t mi_col,
    uint8_t pass,
    size_t edge,
    size_t i,
    uint8_t mi_size,
    uint8_t tx_size,
    uint8_t skip,
    int32_t ref_frame);

/* Packs the cells of the superblock row at mi_row into the front of cells; words behind them are left.
   mi_row, mi_cols, mi_rows count 8 luma samples. The lists start at the row's first cell, row by row, mi_cols to a row,
   min(8, mi_rows - mi_row) rows: mi_sizes 0 (4x4) to 12 (64x64), tx_sizes 0 (4x4) to 3 (32x32), skips 0 or 1,
   ref_frames 0 intra, 1 last, 2 golden, 3 altref, segment_ids 0 to 7. levels: the 64 of springspade_level_table.
   Refusals: 1 sharpness above 7; 2 bit_depth not 8, 10, 12; 3 sub_x, sub_y above 1; 4 mi_cols, mi_rows 0 or above 8192;
   5 mi_row no multiple of 8 below mi_rows; 6 level above 63 (place: entry); 7 short list; 8 bad cell (place: cell). */
SPRINGSPADE_MUST_USE SpringspadeRefusal springspade_row(
    const uint8_t *mi_sizes, size_t mi_sizes_len,
    const uint8_t *tx_sizes, size_t tx_sizes_len,
    const uint8_t *skips, size_t skips_len,
    const int32_t *ref_frames, size_t ref_frames_len,
    const uint8_t *y_modes, size_t y_modes_len,
    const uint8_t *segment_ids, size_t segment_ids_len,
    const uint8_t levels[64],
    uint8_t sharpness,
    uint8_t bit_depth,
    uint8_t sub_x,
    uint8_t sub_y,
    size_t mi_cols,
    size_t mi_rows,
    size_t mi_row,
    uint32_t *cells, size_t cells_len);

/* The fields of a cell's word. Takes any word; its low 12 bits are not read. */
SPRINGSPADE_MUST_USE SpringspadeLfCell springspade_cell(uint32_t word);

/* Filters the superblock at mi_row, mi_col of a plane in place: vertical edges (pass 0) or horizontal ones (pass 1).
   samples: height rows of width samples, stride apart, the first being the plane's row y_origin; width and y_origin +
   height at most 65536, stride at most 131072. cells: as packed by springspade_row. mi_col is counted as mi_row.
   sub_x, sub_y: the frame's, also for plane 0. Refusals: 1 to 5 as springspade_row; 7 short cells; 9 plane above 2,
   pass above 1; 10 mi_col no multiple of 8 below mi_cols; 11 bad word (place: cell); 12 wrong window or short samples;
   13 sample >= 1 << bit_depth (place: row * width + column); 14 cell without level (place: edge * 64 + position). */
SPRINGSPADE_MUST_USE SpringspadeRefusal springspade_pass(
    uint16_t *samples, size_t samples_len,
    const uint32_t *cells, size_t cells_len,
    size_t width,
    size_t height,
    size_t stride,
    size_t y_origin,
    uint8_t sharpness,
    uint8_t bit_depth,
    uint8_t sub_x,
    uint8_t sub_y,
    size_t mi_cols,
    size_t mi_rows,
    size_t mi_row,
    size_t mi_col,
    uint8_t plane,
    uint8_t pass);

/* As springspade_pass, without its tests and without an answer. The caller must hand over only what springspade_pass
   would accept; else memory outside samples and cells may be read or written. */
void springspade_pass_unchecked(
    uint16_t *samples, size_t samples_len,
    const uint32_t *cells, size_t cells_len,
    size_t width,
    size_t height,
    size_t stride,
    size_t y_origin,
    uint8_t sharpness,
    uint8_t bit_depth,
    uint8_t sub_x,
    uint8_t sub_y,
    size_t mi_cols,
    size_t mi_rows,
    size_t mi_row,
    size_t mi_col,
    uint8_t plane,
    uint8_t pass);

/* As springspade_pass over bytes. bit_depth: 8. cells: the words of springspade_row as bytes, four to a cell, the most
   significant first. Refusals: those of springspade_pass; 2 bit_depth not 8; 7 fewer than four bytes for each cell of
   the row; never 13. */
SPRINGSPADE_MUST_USE SpringspadeRefusal springspade_pass_bytes(
    uint8_t *samples, size_t samples_len,
    const uint8_t *cells, size_t cells_len,
    size_t width,
    size_t height,
    size_t stride,
    size_t y_origin,
    uint8_t sharpness,
    uint8_t bit_depth,
    uint8_t sub_x,
    uint8_t sub_y,
    size_t mi_cols,
    size_t mi_rows,
    size_t mi_row,
    size_t mi_col,
    uint8_t plane,
    uint8_t pass);

/* As springspade_pass_bytes, without its tests and without an answer, and with cells as springspade_row packs them. The
   caller must hand over only what springspade_pass_bytes would accept with these words as bytes; else memory outside
   samples and cells may be read or written. */
void springspade_pass_bytes_unchecked(
    uint8_t *samples, size_t samples_len,
    const uint32_t *cells, size_t cells_len,
    size_t width,
    size_t height,
    size_t stride,
    size_t y_origin,
    uint8_t sharpness,
    uint8_t sub_x,
    uint8_t sub_y,
    size_t mi_cols,
    size_t mi_rows,
    size_t mi_row,
    size_t mi_col,
    uint8_t plane,
    uint8_t pass);

/* As springspade_pass, with the numbers behind the window in a record. */
SPRINGSPADE_MUST_USE SpringspadeRefusal springspade_pass_window(
    uint16_t *samples, size_t samples_len,
    const uint32_t *cells, size_t cells_len,
    size_t width,
    size_t height,
    size_t stride,
    size_t y_origin,
    SpringspadePassNumbers numbers);

/* As springspade_pass, over cell records in place of words, with the numbers behind the window in a record.
   Refusal 11 is also for a record with a field too large (place: record). Needs somewhat over 256 KiB of stack. */
SPRINGSPADE_MUST_USE SpringspadeRefusal springspade_pass_records(
    uint16_t *samples, size_t samples_len,
    const SpringspadeCellRecord *records, size_t records_len,
    size_t width,
    size_t height,
    size_t stride,
    size_t y_origin,
    SpringspadePassNumbers numbers);

/* As springspade_row, into cell records in place of words, with the numbers in a record.
   Records behind the row's cells are left. Needs somewhat over 256 KiB of stack. */
SPRINGSPADE_MUST_USE SpringspadeRefusal springspade_row_records(
    const uint8_t *mi_sizes, size_t mi_sizes_len,
    const uint8_t *tx_sizes, size_t tx_sizes_len,
    const uint8_t *skips, size_t skips_len,
    const int32_t *ref_frames, size_t ref_frames_len,
    const uint8_t *y_modes, size_t y_modes_len,
    const uint8_t *segment_ids, size_t segment_ids_len,
    const uint8_t levels[64],
    SpringspadeRowNumbers numbers,
    SpringspadeCellRecord *records, size_t records_len);

/* Writes the runs that a pass would filter to the front of text, or "refused N place P" where it would be refused.
   sheet: a header of 8 bytes, then the words of the superblock row's cells, all with the most significant byte first.
   Header, from its highest bit on: mi_cols 14 bits, mi_rows 14, sub_x 1, sub_y 1, sharpness 3, bit_depth 2 (0, 1, 2 for
   8, 10, 12), plane 2, pass 1, mi_row / 8 10, mi_col / 8 10, zeros 6. Refusal 17: zeros not 0, or mi_cols above 1024.
   Returns how many bytes were written, or 0 where text has fewer than 2048 bytes and is left as it was. */
SPRINGSPADE_MUST_USE size_t springspade_sheet(
    const uint8_t *sheet, size_t sheet_len,
    uint8_t *text, size_t text_len);

#ifdef __cplusplus
}
#endif

#endif
