//! What the differential tests, the benchmark and the vector maker share.

pub mod cases;
pub mod cells;
pub mod edges;
pub mod libvpx;
pub mod lines;
pub mod many;
pub mod passes;
pub mod positions;
pub mod quiet;
pub mod random;
pub mod returned;
pub mod rows;
#[cfg(oracle)]
pub mod rust;
pub mod sheets;
pub mod vectors;

use std::io::Write;

/// Says a line also where the test harness captures what tests print.
pub fn say(line: &str) {
    let _ = writeln!(std::io::stderr(), "{line}");
}
