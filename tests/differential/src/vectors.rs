//! The files that the program `vectors` replays.
//!
//! levels.bin, frames.bin: records of 178 bytes: level, delta_enabled, delta_update, segmentation
//! enabled, abs_or_delta_update; six pairs (present, delta); 32 feature_enabled; 32 feature_data of
//! two bytes, the lower first; the refusal's number or 0; 64 levels, 255 where not compared.
//! strength.bin: records of 6 bytes: sharpness, level, the refusal's number or 0, limit, blimit, thresh.
//! lines.bin: records of 72 bytes: depth, size, limit, blimit, thresh, the refusal's number or 0, its
//! place, 0; the 16 samples before and the 16 after, of two bytes, the lower first, from p7 to q7.
//! byte_lines.bin: records of 56 bytes: the same eight, the last of them how many bytes are lent; 24 bytes
//! before and 24 after, the line's 16 first; those that are not lent are 0.
//! rows.bin: records of 492 bytes: sharpness, depth, sub_x, sub_y; mi_cols, mi_rows, base; the lengths
//! of mi_sizes, tx_sizes, skips, ref_frames, y_modes, segment_ids and cells; the refusal's number or 0,
//! its place; a zero byte; 64 levels; the six lists in the same order; cells before and cells after.
//! Each list has room for 24 entries, which are 0 behind its length.
//! edges.bin: records of 46 bytes: pass, sub_x, sub_y, mi_size, tx_sz, skip; the refusal's number or 0,
//! its place, which is 0; row, col, edge, i, mi_cols, mi_rows; ref_frame; x, y, loop_col, loop_row;
//! is_block_edge, is_tx_edge, is_32_edge, on_screen, apply_filter, size.
//! In these two mi_cols, mi_rows, base, row, col, edge and i have two bytes, references, cells, x, y,
//! loop_col and loop_row four, the lowest first; all else has one.
//! passes.bin: records of 2,728 bytes, numbers with the lowest byte first. One byte each: sharpness,
//! depth, sub_x, sub_y, plane, pass, the refusal's number or 0, how many cells are lent. From byte 8 on
//! two each: mi_cols, mi_rows, row, col. From 16 on four each: width, height, stride, y_origin, how many
//! samples are lent, the refusal's place. From 40 on 32 cells of four bytes, from 168 on 640 samples
//! before and from 1,448 on 640 samples after, of two bytes; cells and samples that are not lent are 0.
//! byte_passes.bin: records of 1,448 bytes. The first 40 as in passes.bin, but that the eighth is how many
//! bytes of cells are lent. From 40 on 128 of them, four to a cell, the highest first, from 168 on 640 samples
//! before and from 808 on 640 after, of one byte; those that are not lent are 0.
//! sheets.bin: records of 1,860 bytes. Two bytes each, the lower first: how many bytes the sheet has, how
//! many its text. From byte 4 on 272 bytes of the sheet, from 276 on 1,584 of the text, 0 behind theirs.

#[cfg(oracle)]
mod byte_lines;
#[cfg(oracle)]
mod byte_passes;
#[cfg(oracle)]
mod edges;
#[cfg(oracle)]
mod passes;
#[cfg(oracle)]
mod rows;
#[cfg(oracle)]
mod sheets;

use crate::lines::{Line, STEP};
use crate::{cases::Case, libvpx};
use std::{array, collections::HashSet};

/// Name and contents of each file; no contents where its source is not at hand.
pub fn files() -> [(&'static str, Option<Vec<u8>>); 10] {
    let folder = libvpx::folder();
    let (rows, edges) = folder.as_deref().and_then(rows_and_edges).unzip();
    [
        ("levels.bin", levels()),
        ("frames.bin", folder.as_deref().map(frames)),
        ("strength.bin", folder.as_deref().map(strengths)),
        ("lines.bin", folder.as_deref().map(lines)),
        ("byte_lines.bin", folder.as_deref().and_then(byte_lines)),
        ("rows.bin", rows),
        ("edges.bin", edges),
        ("passes.bin", passes()),
        ("byte_passes.bin", byte_passes()),
        ("sheets.bin", sheets()),
    ]
}

#[cfg(not(oracle))]
fn byte_lines(_: &std::path::Path) -> Option<Vec<u8>> {
    None
}

#[cfg(oracle)]
fn byte_lines(folder: &std::path::Path) -> Option<Vec<u8>> {
    Some(byte_lines::contents(folder))
}

#[cfg(not(oracle))]
fn rows_and_edges(_: &std::path::Path) -> Option<(Vec<u8>, Vec<u8>)> {
    None
}

#[cfg(oracle)]
fn rows_and_edges(folder: &std::path::Path) -> Option<(Vec<u8>, Vec<u8>)> {
    Some((rows::contents(folder), edges::contents(folder)))
}

#[cfg(not(oracle))]
fn passes() -> Option<Vec<u8>> {
    None
}

#[cfg(oracle)]
fn passes() -> Option<Vec<u8>> {
    Some(passes::contents())
}

#[cfg(not(oracle))]
fn byte_passes() -> Option<Vec<u8>> {
    None
}

#[cfg(oracle)]
fn byte_passes() -> Option<Vec<u8>> {
    Some(byte_passes::contents())
}

#[cfg(not(oracle))]
fn sheets() -> Option<Vec<u8>> {
    None
}

#[cfg(oracle)]
fn sheets() -> Option<Vec<u8>> {
    Some(sheets::contents())
}

#[cfg(not(oracle))]
fn levels() -> Option<Vec<u8>> {
    None
}

/// 400 records by the Rust: the document's cases, random ones, refused levels.
#[cfg(oracle)]
fn levels() -> Option<Vec<u8>> {
    use crate::{cases::*, random::Random, rust};
    let mut random = Random(1);
    let document = [LEVEL_40, SEGMENT_20, LEVEL_31, UPDATED_NOT_ENABLED];
    let mut cases = document.to_vec();
    cases.extend((0..388).map(|_| Case::random(&mut random)));
    let accepted = cases.iter().flat_map(|case| record(case, 0, &rust::level_table(case)));
    let refused = [64, 65, 95, 96, 127, 128, 192, 255].map(|level| {
        let case = Case { level, ..Case::random(&mut random) };
        record(&case, 6, &[0; 64])
    });
    Some(accepted.chain(refused.concat()).collect())
}

/// All of libvpx's, then refusals of the document at their limits.
fn strengths(folder: &std::path::Path) -> Vec<u8> {
    let accepted = libvpx::strengths(folder).into_iter();
    let accepted = accepted
        .map(|[sharpness, lvl, limit, blimit, thresh]| [sharpness, lvl, 0, limit, blimit, thresh]);
    let refused = [(8, 0, 1), (255, 63, 1), (8, 64, 1), (7, 64, 6), (0, 255, 6)];
    let refused = refused.map(|(sharpness, lvl, number)| [sharpness, lvl, number, 0, 0, 0]);
    accepted.chain(refused).flatten().collect()
}

fn frames(folder: &std::path::Path) -> Vec<u8> {
    let record = |f: &libvpx::Frame| record(&f.case, 0, &f.levels);
    libvpx::frames(folder).iter().flat_map(record).collect()
}

fn record(case: &Case, refusal: u8, levels: &[u8; 64]) -> Vec<u8> {
    let mut bytes = vec![
        case.level,
        case.delta_enabled.into(),
        case.delta_update.into(),
        case.seg_enabled.into(),
        case.abs_or_delta_update.into(),
    ];
    for (&present, &delta) in case.present.iter().zip(&case.deltas) {
        bytes.extend([present.into(), delta as u8]);
    }
    bytes.extend(case.feature_enabled.as_flattened().iter().map(|&on| u8::from(on)));
    bytes.extend(case.feature_data.as_flattened().iter().flat_map(|datum| datum.to_le_bytes()));
    bytes.push(refusal);
    bytes.extend(levels);
    bytes
}

/// Every 40th of libvpx's, 600, then refusals of the document at their limits.
fn lines(folder: &std::path::Path) -> Vec<u8> {
    let lines = libvpx::lines(folder);
    let sample = || lines.iter().step_by(40);
    let kinds: HashSet<_> = sample().map(|f| (f.line.depth, f.line.size, f.line.arm())).collect();
    assert_eq!(kinds.len(), 3 * (2 + 3 + 4), "at each depth, the arms of sizes 0, 1 and 2");
    let accepted = sample().map(|f| line_record(&f.line, 0, 0, &f.after));
    let refused =
        lines_refused().map(|(line, number, place)| line_record(&line, number, place, &line.taps));
    accepted.chain(refused).flatten().collect()
}

/// The document's step, to be filtered at level 32 and sharpness 0.
fn step(depth: u8, size: u8) -> Line {
    let strength = springspade::strength(32, 0).unwrap();
    Line { depth, size, strength, taps: STEP }
}

/// Each with its number and place.
fn lines_refused() -> [(Line, u8, u8); 13] {
    let with = |depth: u8, size: u8, samples: &[(usize, u16)]| {
        let mut line = step(depth, size);
        samples.iter().for_each(|&(tap, sample)| line.taps[tap] = sample);
        line
    };
    [
        (with(7, 0, &[]), 2, 0),
        (with(9, 2, &[]), 2, 0),
        (with(11, 2, &[]), 2, 0),
        (with(13, 2, &[]), 2, 0),
        (with(9, 3, &[(5, 65535)]), 2, 0),
        (with(8, 0, &[(0, 256)]), 13, 0),
        (with(8, 2, &[(15, 256)]), 13, 15),
        (with(10, 1, &[(7, 1024)]), 13, 7),
        (with(12, 1, &[(8, 4096)]), 13, 8),
        (with(12, 2, &[(3, 65535), (12, 65535)]), 13, 3),
        (with(8, 3, &[(9, 256)]), 13, 9),
        (with(8, 3, &[]), 15, 0),
        (with(12, 255, &[]), 15, 0),
    ]
}

/// What stands before the samples of a line.
fn line_numbers(line: &Line, refusal: u8, place: u8, lent: u8) -> [u8; 8] {
    let springspade::Strength { limit, blimit, thresh } = line.strength;
    [line.depth, line.size, limit, blimit, thresh, refusal, place, lent]
}

fn line_record(line: &Line, refusal: u8, place: u8, after: &[u16; 16]) -> Vec<u8> {
    let mut bytes = line_numbers(line, refusal, place, 0).to_vec();
    bytes.extend(line.taps.iter().chain(after).flat_map(|sample| sample.to_le_bytes()));
    bytes
}

/// A list in a room of this length, behind it zeros.
fn padded<T: Copy + Default, const N: usize>(list: &[T]) -> [T; N] {
    assert!(list.len() <= N, "{} of {N}", list.len());
    array::from_fn(|k| list.get(k).copied().unwrap_or_default())
}
