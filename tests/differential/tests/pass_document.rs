//! The document's own cases of the pass.

use springspade::*;

/// Case S: two cells of 8 by 8, transform 1, level 32.
const CASE_S: u32 = 0x1156_0000;

/// The same cell without level, and with transform 2.
const LEVELLESS: u32 = 0x1150_0000;
const TRANSFORM_2: u32 = 0x1196_0000;

const FRAME: Frame =
    Frame { sharpness: 0, bit_depth: 8, sub_x: 0, sub_y: 0, mi_cols: 2, mi_rows: 1 };
const FIRST: Superblock = Superblock { mi_row: 0, mi_col: 0, plane: 0, pass: 0 };
const WHOLE: Window = Window { width: 16, height: 8, stride: 16, y_origin: 0 };

/// Left of x = 8 all samples are 100, from there on 104.
const STEP: [u16; 16] =
    [100, 100, 100, 100, 100, 100, 100, 100, 104, 104, 104, 104, 104, 104, 104, 104];

/// Eight rows of the step.
fn rows() -> Vec<u16> {
    STEP.repeat(8)
}

/// What a pass over rows of two cells in this frame leaves of them.
fn filtered(row: &[u16], window: &Window, cells: [u32; 2]) -> Vec<u16> {
    let mut samples = row.repeat(window.height);
    assert_eq!(pass(&mut samples, window, &cells, &FRAME, &FIRST), Ok(()));
    let rows: Vec<&[u16]> = samples.chunks(window.stride).collect();
    assert!(rows.iter().all(|row| *row == rows[0]), "{samples:?}");
    rows[0].to_vec()
}

/// Refused, and all samples are left.
fn refused(
    samples: &[u16],
    window: &Window,
    cells: [u32; 2],
    frame: &Frame,
    number: u32,
    place: u32,
) {
    let mut after = samples.to_vec();
    let refused = pass(&mut after, window, &cells, frame, &FIRST);
    assert_eq!(refused, Err(Refused { number, place }), "{window:?}, {cells:x?}, {frame:?}");
    assert_eq!(after, samples, "{window:?}, {cells:x?}, {frame:?}");
}

/// M9 on every row.
#[test]
fn case_s() {
    let after = [100, 100, 100, 100, 100, 101, 101, 102, 103, 103, 104, 104, 104, 104, 104, 104];
    assert_eq!(filtered(&STEP, &WHOLE, [CASE_S; 2]), after);
    // M10.
    let after = [100, 100, 101, 101, 101, 101, 102, 102, 102, 103, 103, 103, 103, 104, 104, 104];
    assert_eq!(filtered(&STEP, &WHOLE, [CASE_S, TRANSFORM_2]), after);
}

/// Rows below the frame's one row of cells are left, and so is what has no edge inside the frame.
#[test]
fn case_s_elsewhere() {
    let mut samples = STEP.repeat(12);
    let window = Window { height: 12, ..WHOLE };
    assert_eq!(pass(&mut samples, &window, &[CASE_S; 2], &FRAME, &FIRST), Ok(()));
    assert_ne!(samples[..128], rows());
    assert_eq!(samples[128..], STEP.repeat(4));
    for at in [Superblock { pass: 1, ..FIRST }, Superblock { plane: 1, pass: 1, ..FIRST }] {
        let mut samples = rows();
        assert_eq!(pass(&mut samples, &WHOLE, &[CASE_S; 2], &FRAME, &at), Ok(()));
        assert_eq!(samples, rows(), "{at:?}");
    }
}

/// Edge 2 reads the second cell alone.
#[test]
fn case_s_without_level() {
    refused(&rows(), &WHOLE, [CASE_S, LEVELLESS], &FRAME, 14, 128);
    refused(&rows(), &WHOLE, [LEVELLESS; 2], &FRAME, 14, 128);
    assert_eq!(filtered(&STEP, &WHOLE, [LEVELLESS, CASE_S]), filtered(&STEP, &WHOLE, [CASE_S; 2]));
}

#[test]
fn sharpness() {
    let mut samples = rows();
    let frame = Frame { sharpness: 7, ..FRAME };
    assert_eq!(pass(&mut samples, &WHOLE, &[CASE_S; 2], &frame, &FIRST), Ok(()));
    refused(&rows(), &WHOLE, [CASE_S; 2], &Frame { sharpness: 8, ..FRAME }, 1, 0);
}

#[test]
fn strides() {
    filtered(&STEP, &Window { stride: 16, ..WHOLE }, [CASE_S; 2]);
    refused(&rows(), &Window { stride: 15, ..WHOLE }, [CASE_S; 2], &FRAME, 12, 0);
}

#[test]
fn samples() {
    for place in 0..128 {
        let mut samples = rows();
        samples[place] = 255;
        let mut after = samples.clone();
        assert_eq!(pass(&mut after, &WHOLE, &[CASE_S; 2], &FRAME, &FIRST), Ok(()));
        samples[place] = 256;
        refused(&samples, &WHOLE, [CASE_S; 2], &FRAME, 13, place as u32);
    }
}

/// A place counts the window's columns alone.
#[test]
fn place_of_a_sample() {
    let window = Window { width: 16, height: 3, stride: 20, y_origin: 2 };
    let mut samples = [100; 56];
    // Between width and stride.
    (samples[16], samples[39]) = (256, 65535);
    let mut after = samples;
    assert_eq!(pass(&mut after, &window, &[CASE_S; 2], &FRAME, &FIRST), Ok(()));
    assert_eq!(after, samples);
    samples[43] = 256;
    refused(&samples, &window, [CASE_S; 2], &FRAME, 13, 2 * 16 + 3);
}

/// The q side lies past the window, all of it the same as p0: the p side is still filtered.
#[test]
fn p_side_alone() {
    let window = Window { width: 8, height: 8, stride: 8, y_origin: 0 };
    let row = [101, 101, 101, 101, 101, 100, 101, 100];
    let after = [101, 101, 101, 101, 101, 101, 101, 100];
    assert_eq!(filtered(&row, &window, [CASE_S; 2]), after);
}

/// Of 12 columns q0 to q3 are the window's. For q4 to q7 the last is read, which feeds what is written.
#[test]
fn window_of_12_columns() {
    let window = Window { width: 12, height: 8, stride: 12, y_origin: 0 };
    let row = [100, 100, 100, 100, 100, 100, 100, 100, 104, 104, 104, 105];
    let mut taps = STEP;
    taps[11..].fill(105);
    line(&mut taps, 8, 2, strength(32, 0).unwrap()).unwrap();
    let after = filtered(&row, &window, [CASE_S, TRANSFORM_2]);
    assert_eq!(after, taps[..12]);
    assert_eq!(after, [100, 100, 101, 101, 101, 101, 102, 102, 103, 103, 103, 104]);
}
