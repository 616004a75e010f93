//! The pass by records: a window that holds its samples, cells with a byte for each field.

use super::Pass;
use crate::returned::Returned;
use springspade::{CellRecord, PlaneWindow, cell, pass_records, pass_window};

impl Pass {
    /// What ours returns for the window as a record, and the lent samples after it. Those beside them are left.
    pub fn ours_by_window(&self) -> (Returned, Vec<u16>) {
        let Pass { frame, at, cells, window, .. } = self;
        self.guarded(|samples| {
            pass_window(PlaneWindow { samples, shape: *window }, cells, frame, at).into()
        })
    }

    /// The cells as records. What stands in a word's zero bits is lost.
    pub fn records(&self) -> Vec<CellRecord> {
        self.cells.iter().map(|&word| cell(word).into()).collect()
    }

    /// What ours returns for cells as records, and the lent samples after it. Those beside them are left.
    pub fn ours_by_records(&self, records: &[CellRecord]) -> (Returned, Vec<u16>) {
        let Pass { frame, at, window, .. } = self;
        self.guarded(|samples| pass_records(samples, window, records, frame, at).into())
    }
}
