//! Makes the header and the Rust declarations anew.

use border::{Border, files, root};
use std::fs;

fn main() {
    for (name, text) in files(&Border::read(&root())) {
        fs::write(root().join(name), text).unwrap_or_else(|e| panic!("{name}: {e}"));
        println!("{name}");
    }
}
