//! All passes over superblocks side by side: by our entry, by our pass without its tests, over u16 and over bytes, and
//! by the Rust.

use crate::planes::{Planes, fill};
use crate::row::nanoseconds;
use differential::passes::Pass;
use differential::positions::{decided, is_inside, taps};
use differential::rows::Row;
use differential::rust;
use oracle::frame_buf::Px;
use oracle::superblock_loop_filter::{HookRow, hook_row};
use springspade::{CellRecord, Frame, Superblock, Window, cell, cell_bytes};
use std::{hint::black_box, ops::Range};

pub struct Superblocks {
    frame: Frame,
    base: usize,
    /// The columns of cells whose superblocks are filtered.
    columns: Range<usize>,
    windows: [Window; 3],
    words: Vec<u32>,
    cells: HookRow,
    before: Planes,
    after: Planes,
}

/// One way through all passes, into these planes, and its nanoseconds.
pub type Way<S> = fn(&Superblocks, &mut [Vec<S>; 3]) -> f64;

impl Superblocks {
    /// Runs every pass through our entry, which must accept it.
    pub fn new(row: &Row, columns: Range<usize>, windows: [Window; 3], before: Planes) -> Self {
        let &Row { frame, base, .. } = row;
        let words = row.words();
        let cells = rust::with_frame(row, |frame| hook_row(frame, base as u32));
        let after = before.clone();
        let mut all = Superblocks { frame, base, columns, windows, words, cells, before, after };
        let mut after = all.before.clone();
        all.checked(&mut after);
        all.after = after;
        all
    }

    /// Whether the passes change a sample at all.
    pub fn change(&self) -> bool {
        self.after != self.before
    }

    /// How many positions are filtered in all passes, and how many of them read past the window.
    pub fn positions(&self) -> (usize, usize) {
        let (mut all, mut at_border) = (0, 0);
        self.each_pass(|&at, &window| {
            let (frame, cells) = (self.frame, self.words.clone());
            let pass = Pass { frame, at, cells, window, samples: Vec::new() };
            let decided = decided(&pass);
            for position in decided.iter().filter(|position| position.cell.level > 0) {
                let is_past = |&tap: &(i64, i64)| !is_inside(&window, tap);
                all += 1;
                at_border += usize::from(taps(&pass, position).iter().any(is_past));
            }
        });
        (all, at_border)
    }

    /// Nanoseconds of all passes by our entry, into these planes.
    pub fn checked(&self, planes: &mut Planes) -> f64 {
        fill(planes, &self.before);
        nanoseconds(|| {
            self.each_pass(|at, window| {
                let samples = &mut planes[at.plane as usize];
                springspade::pass(samples, window, &self.words, &self.frame, at).unwrap();
            });
        })
    }

    /// The same by our entry over cell records.
    pub fn by_records(&self, planes: &mut Planes) -> f64 {
        fill(planes, &self.before);
        let records: Vec<CellRecord> = self.words.iter().map(|&word| cell(word).into()).collect();
        nanoseconds(|| {
            self.each_pass(|at, window| {
                let samples = &mut planes[at.plane as usize];
                springspade::pass_records(samples, window, &records, &self.frame, at).unwrap();
            });
        })
    }

    /// The same without the tests.
    #[expect(unsafe_code, reason = "the entry accepted the same passes on the same samples")]
    pub fn unchecked(&self, planes: &mut Planes) -> f64 {
        fill(planes, &self.before);
        nanoseconds(|| {
            self.each_pass(|at, window| {
                let samples = &mut planes[at.plane as usize];
                // SAFETY: `new` ran these passes in this order from the same samples through the entry, which
                // accepted each. Passes leave the same samples, so each call here has the arguments of one there.
                unsafe {
                    springspade::pass_unchecked(samples, window, &self.words, &self.frame, at);
                }
            });
        })
    }

    /// By our entry over bytes.
    pub fn checked_bytes(&self, planes: &mut [Vec<u8>; 3]) -> f64 {
        fill(planes, &self.before);
        let cells = cell_bytes(&self.words);
        nanoseconds(|| {
            self.each_pass(|at, window| {
                let samples = &mut planes[at.plane as usize];
                springspade::pass_bytes(samples, window, &cells, &self.frame, at).unwrap();
            });
        })
    }

    /// The same without the tests.
    #[expect(
        unsafe_code,
        reason = "the entry over bytes accepts what that over u16 accepted at depth 8"
    )]
    pub fn unchecked_bytes(&self, planes: &mut [Vec<u8>; 3]) -> f64 {
        fill(planes, &self.before);
        assert_eq!(self.frame.bit_depth, 8);
        nanoseconds(|| {
            self.each_pass(|at, window| {
                let samples = &mut planes[at.plane as usize];
                // SAFETY: as in `unchecked`; at depth 8 the entry over bytes accepts what the one over u16 does.
                unsafe {
                    springspade::pass_bytes_unchecked(
                        samples,
                        window,
                        &self.words,
                        &self.frame,
                        at,
                    );
                }
            });
        })
    }

    /// The same by the Rust, over samples of any type.
    pub fn rust<S: Px>(&self, planes: &mut [Vec<S>; 3]) -> f64 {
        fill(planes, &self.before);
        nanoseconds(|| {
            self.each_pass(|at, &Window { width, height, stride, y_origin }| {
                let samples = &mut planes[at.plane as usize];
                let (row, col) = (at.mi_row as u32, at.mi_col as u32);
                let (plane, pass) = (at.plane, at.pass);
                self.cells.pass(samples, stride, width, height, y_origin, plane, pass, row, col);
            });
        })
    }

    /// The planes have what the entry left.
    pub fn compare<S: Copy + Into<u16>>(&self, name: &str, planes: &[Vec<S>; 3]) {
        for (plane, after) in planes.iter().zip(&self.after) {
            let is_equal = plane.iter().map(|&sample| sample.into()).eq(after.iter().copied());
            assert!(is_equal, "{name}: samples differ from those that the entry left");
        }
    }

    /// Superblock by superblock, plane by plane, the vertical edges first.
    fn each_pass(&self, mut run: impl FnMut(&Superblock, &Window)) {
        for col in self.columns.clone().step_by(8) {
            for plane in 0..3 {
                for pass in 0..2 {
                    let at = Superblock { mi_row: self.base, mi_col: col, plane, pass };
                    run(black_box(&at), &self.windows[plane as usize]);
                }
            }
        }
    }
}
