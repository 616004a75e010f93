//! Windows of the pass: shapes and samples that just pass, and that just do not.

use differential::passes::Pass;
use differential::passes::small::{LARGE, accepted, refused, small, with};
use differential::random::Random;
use springspade::{Frame, Superblock, Window};

/// Samples for a window, one more or fewer than it needs.
fn lent(window: Window, more: isize) -> Pass {
    let needed = (window.height - 1) * window.stride + window.width;
    let samples = vec![9; needed.strict_add_signed(more)];
    Pass { window, samples, ..small() }
}

/// Refused for its shape, with samples in range and out of it.
fn shape_refused(window: Window, more: isize) {
    let mut pass = lent(window, more);
    refused(&pass, 12, 0);
    pass.samples.fill(65535);
    refused(&pass, 12, 0);
}

/// The largest and the smallest, lent as many samples as they need, one more and one fewer.
#[test]
fn shapes_accepted() {
    for (width, stride) in [(1, 1), (1, 131_072), (65_536, 65_536), (65_536, 131_072)] {
        for (height, y_origin) in [(1, 0), (2, 40), (1, 65_535), (2, 65_534)] {
            let window = Window { width, height, stride, y_origin };
            accepted(&lent(window, 0));
            accepted(&lent(window, 1));
            shape_refused(window, -1);
        }
    }
    for height in [65_535, 65_536] {
        for width in [1, 3] {
            let window = Window { width, height, stride: width, y_origin: 65_536 - height };
            accepted(&lent(window, 0));
            shape_refused(window, -1);
        }
    }
}

/// One more than the largest or one less than the smallest, lent as many samples as it would need.
#[test]
fn shapes_refused() {
    for (width, height, stride, y_origin) in [
        (0, 2, 1, 0),
        (65_537, 1, 65_537, 0),
        (65_537, 2, 131_072, 0),
        (1, 1, 131_073, 0),
        (1, 2, 131_073, 0),
        (1, 1, 0, 0),
        (44, 12, 43, 24),
        (65_536, 1, 65_535, 0),
        (1, 65_537, 1, 0),
        (1, 65_536, 1, 1),
        (44, 12, 44, 65_525),
        (1, 2, 1, 65_535),
        (1, 1, 1, 65_536),
    ] {
        shape_refused(Window { width, height, stride, y_origin }, 0);
    }
    refused(&with(|pass| pass.window.height = 0), 12, 0);
    accepted(&lent(Window { stride: 44, y_origin: 65_524, ..small().window }, 0));
}

/// Numbers with which a sum or a product of fewer bits would pass.
#[test]
fn shapes_too_large() {
    let whole = small().window;
    for number in [131_074, usize::MAX, usize::MAX - 11].into_iter().chain(LARGE) {
        for window in [
            Window { width: number, ..whole },
            Window { width: number, stride: number, ..whole },
            Window { height: number, ..whole },
            Window { height: number, y_origin: 65_536usize.wrapping_sub(number), ..whole },
            Window { stride: number, ..whole },
            Window { height: 1, stride: number, ..whole },
            Window { y_origin: number, ..whole },
            Window { y_origin: number, height: 1, ..whole },
        ] {
            refused(&with(|pass| pass.window = window), 12, 0);
        }
    }
}

/// The samples that a window needs are counted in more than 32 bits.
#[test]
fn many_samples() {
    for (height, stride) in
        [(32_769, 131_072), (65_536, 131_072), (65_536, 65_537), (49_153, 87_384)]
    {
        for width in [1, 44, 65_536] {
            let window = Window { width, height, stride, y_origin: 0 };
            refused(&with(|pass| pass.window = window), 12, 0);
            let samples = vec![9; 1 << 20];
            refused(&Pass { window, samples, ..small() }, 12, 0);
        }
    }
}

/// Every sample of the window counts, also where nothing is decided; no other does.
#[test]
fn samples() {
    let good = with(|pass| pass.samples.extend([0; 70]));
    for (depth, top) in [(8, 255), (10, 1023), (12, 4095)] {
        let one = |k: usize, sample: u16| {
            let mut pass = good.clone();
            pass.frame.bit_depth = depth;
            pass.samples[k] = sample;
            pass
        };
        for k in 0..good.samples.len() {
            let (row, column) = (k / 50, k % 50);
            if row >= 12 || column >= 44 {
                accepted(&one(k, 65535));
                continue;
            }
            let place = (44 * row + column) as u32;
            accepted(&one(k, top));
            for sample in [top + 1, 32768, 65535] {
                refused(&one(k, sample), 13, place);
            }
            let mut behind = one(k, top + 1);
            behind.samples[k..].fill(65535);
            refused(&behind, 13, place);
        }
    }
}

#[test]
fn places_of_samples() {
    let window = Window { width: 65_536, height: 4, stride: 65_600, y_origin: 65_500 };
    let mut pass = lent(window, 0);
    for (row, column) in [(3, 65_535), (3, 0), (2, 1), (0, 65_535), (0, 0)] {
        pass.samples[row * 65_600 + column] = 4096;
        refused(&pass, 13, (row * 65_536 + column) as u32);
    }
    let window = Window { width: 3, height: 65_536, stride: 4, y_origin: 0 };
    let mut pass = lent(window, 0);
    for row in [65_535, 40_000, 1] {
        pass.samples[4 * row + 2] = 4096;
        refused(&pass, 13, (3 * row + 2) as u32);
    }
}

/// Windows and frames as large as they are accepted, and as small.
#[test]
fn limits() {
    let mut random = Random(32);
    let frame =
        Frame { sharpness: 0, bit_depth: 8, sub_x: 0, sub_y: 0, mi_cols: 8192, mi_rows: 8192 };
    let narrow = Frame { mi_cols: 2, ..frame };
    let last = Superblock { mi_row: 8184, mi_col: 8184, plane: 0, pass: 0 };
    let left = Superblock { mi_col: 0, ..last };
    let window = |width, height, stride| {
        let y_origin = 65_536 - height;
        Window { width, height, stride, y_origin }
    };
    let one = Window { width: 1, height: 1, stride: 1, y_origin: 0 };
    let first = Superblock { mi_row: 0, mi_col: 0, ..last };
    for pass in [0, 1] {
        for (frame, at, window) in [
            (frame, last, window(65_536, 72, 65_536)),
            (frame, last, window(65_536, 2, 131_072)),
            (frame, last, window(65_536, 1, 131_072)),
            (narrow, left, window(16, 65_536, 16)),
            (narrow, left, window(1, 65_536, 1)),
            (narrow, left, window(12, 1, 131_072)),
            (narrow, left, one),
            (narrow, first, window(12, 65_536, 13)),
            (Frame { mi_cols: 1, mi_rows: 1, ..frame }, first, one),
        ] {
            for depth in [8, 12] {
                let (frame, at) = (Frame { bit_depth: depth, ..frame }, Superblock { pass, ..at });
                accepted(&Pass::accepted(&mut random, frame, at, window));
            }
        }
    }
}
