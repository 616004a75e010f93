//! The declarations of the C border, made from the exported functions of the Rattle crates: the C header and the Rust
//! declarations.

mod declared;
mod header;
mod rust;

pub use declared::{Border, Function, Record, Type, Variable};
pub use header::header;
pub use rust::declarations;

use std::path::PathBuf;

/// Both begin with this, in a comment.
const ORIGIN: &str =
    "Made by `cargo run -p border` in tests/ from the exported functions of crates/.";

/// The repository's root.
pub fn root() -> PathBuf {
    PathBuf::from(env!("CARGO_MANIFEST_DIR")).join("../..")
}

/// The files that are made: their names, from the root on, and what they hold.
pub fn files(border: &Border) -> [(&'static str, String); 2] {
    [("include/springspade.h", header(border)), ("rust/springspade/src/c.rs", declarations(border))]
}
