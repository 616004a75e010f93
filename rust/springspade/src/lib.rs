//! The loop filter of a VP9 decoder, from the level table of a frame to the filtered superblock of a plane. It is written
//! in Rattle and proved equal to its definitions; this crate is safe Rust over the C functions that it is compiled to.
//!
//! A decoder filters a frame once all its blocks are decoded. `examples/frame.rs` has the whole order of work:
//!
//! 1. A frame of level 0 is not filtered.
//! 2. [`level_table`] once for the frame.
//! 3. For each superblock row, from the top: [`row`] makes its cells anew.
//! 4. For each superblock of the row, from the left, for planes 0, 1 and 2: [`pass`] 0, then [`pass`] 1, over a window that
//!    has the eight rows above the superblock too. Where they are missing, nothing is refused and the picture is wrong.
//!
//! Sizes and places of blocks count cells of 8 by 8 luma samples, the standard's mode info units: `mi_cols`, `mi_rows`,
//! `mi_row`, `mi_col`. A superblock is 8 by 8 cells. A plane is 8 * `mi_cols` by 8 * `mi_rows` samples, each halved where the
//! plane is subsampled, also where the picture that is shown is smaller.
//!
//! Planes of 8 bits may also be bytes: [`line_bytes`] and [`pass_bytes`].
//!
//! Nothing is asked of a caller but by [`pass_unchecked`] and [`pass_bytes_unchecked`]. A call that is refused gives
//! [`Refused`] and leaves all that was lent as it was. No call keeps anything, so calls may run on several threads.
//!
//! ```
//! let strength = springspade::strength(32, 0)?;
//! let mut taps = [100, 100, 100, 100, 100, 100, 100, 100, 104, 104, 104, 104, 104, 104, 104, 104];
//! springspade::line(&mut taps, 8, 0, strength)?;
//! assert_eq!(taps[6..10], [101, 101, 102, 103]);
//! # Ok::<(), springspade::Refused>(())
//! ```

mod byte_pass;
pub mod c;
mod cell;
mod edge;
mod levels;
mod line;
mod pass;
mod records;
mod refused;
mod row;
mod sheet;
mod strength;

pub use byte_pass::{pass_bytes, pass_bytes_unchecked};
pub use cell::{Cell, cell, cell_bytes};
pub use edge::{EdgeFacts, Position, edge};
pub use levels::{LoopFilter, Segmentation, level_table};
pub use line::{line, line_bytes};
pub use pass::{Superblock, Window, pass, pass_unchecked};
pub use records::{CellRecord, PlaneWindow, pass_records, pass_window, row_records};
pub use refused::Refused;
pub use row::{Frame, ModeInfo, row};
pub use sheet::{SHEET_ROOM, sheet, sheet_into};
pub use strength::{Strength, mode_type, strength};
