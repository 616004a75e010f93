//! Filters a whole frame, as a decoder does once all its blocks are decoded.

use springspade::{Frame, LoopFilter, ModeInfo, Refused, Segmentation, Superblock, Window};

/// Filters the planes of a frame in place. Each list of `info` has an entry for each cell, 8 by 8 luma samples, of the
/// frame, row by row. A plane has 8 * mi_cols by 8 * mi_rows samples, each halved where it is subsampled: a picture
/// whose size is no multiple of 8 is filtered with the samples that fill its last cells.
pub fn filter_frame(
    loop_filter: &LoopFilter,
    segmentation: &Segmentation,
    frame: &Frame,
    info: &ModeInfo,
    planes: &mut [Vec<u16>; 3],
) -> Result<(), Refused> {
    // Level 0 turns the filter off, also where a segment has a level of its own.
    if loop_filter.level == 0 {
        return Ok(());
    }
    let levels = springspade::level_table(loop_filter, segmentation)?;
    let mut cells = vec![0; 8 * frame.mi_cols];
    for mi_row in (0..frame.mi_rows).step_by(8) {
        let row_info = info.from_cell(mi_row * frame.mi_cols);
        springspade::row(&row_info, &levels, frame, mi_row, &mut cells)?;
        for mi_col in (0..frame.mi_cols).step_by(8) {
            for (plane, samples) in (0..).zip(&mut *planes) {
                let (sub_x, sub_y) = if plane == 0 { (0, 0) } else { (frame.sub_x, frame.sub_y) };
                let width = (8 * frame.mi_cols) >> sub_x;
                // The rows of the superblocks and the eight above, which the upper edge reads and writes.
                let y_origin = ((8 * mi_row) >> sub_y).saturating_sub(8);
                let end = (8 * frame.mi_rows.min(mi_row + 8)) >> sub_y;
                let window = Window { width, height: end - y_origin, stride: width, y_origin };
                let lent = &mut samples[y_origin * width..end * width];
                for pass in 0..2 {
                    let at = Superblock { mi_row, mi_col, plane, pass };
                    springspade::pass(lent, &window, &cells, frame, &at)?;
                }
            }
        }
    }
    Ok(())
}

/// A frame of 136 by 72 samples, 4:2:0, in blocks of 16 by 16, each of one grey.
fn main() -> Result<(), Refused> {
    let frame = Frame { sharpness: 0, bit_depth: 8, sub_x: 1, sub_y: 1, mi_cols: 17, mi_rows: 9 };
    let cells = frame.mi_cols * frame.mi_rows;
    let info = ModeInfo {
        mi_sizes: &vec![6; cells],    // 16x16
        tx_sizes: &vec![2; cells],    // 16x16
        skips: &vec![0; cells],       // all have coefficients
        ref_frames: &vec![0; cells],  // intra
        y_modes: &vec![0; cells],     // DC_PRED
        segment_ids: &vec![0; cells], // no segments
    };
    let mut planes = [(136, 16), (68, 8), (68, 8)].map(|(width, block)| {
        let grey = |k: usize| 100 + 4 * ((k % width / block + k / width / block) % 2) as u16;
        (0..width * width * 9 / 17).map(grey).collect::<Vec<u16>>()
    });
    let before = planes.clone();

    let loop_filter = LoopFilter { level: 32, ..LoopFilter::default() };
    filter_frame(&loop_filter, &Segmentation::default(), &frame, &info, &mut planes)?;

    println!("luma, row 4, from column 8 on: {:?}", &before[0][4 * 136 + 8..][..16]);
    println!("filtered:                      {:?}", &planes[0][4 * 136 + 8..][..16]);
    for plane in 0..3 {
        let pairs = before[plane].iter().zip(&planes[plane]);
        let changed = pairs.filter(|(before, after)| before != after).count();
        println!("plane {plane}: {changed} of {} samples changed", planes[plane].len());
    }
    Ok(())
}
