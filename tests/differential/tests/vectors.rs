//! The committed vectors are what the maker makes now.

use differential::{say, vectors};

#[test]
fn committed_vectors_are_current() {
    let folder = concat!(env!("CARGO_MANIFEST_DIR"), "/../../crates/vectors/data");
    for (name, contents) in vectors::files() {
        match contents {
            Some(bytes) => {
                let committed = std::fs::read(format!("{folder}/{name}"));
                let committed = committed.unwrap_or_else(|e| panic!("{folder}/{name}: {e}"));
                assert!(committed == bytes, "{name} is not what the maker makes");
            }
            None => say(&format!("{name} passed over: its source is not at hand")),
        }
    }
}
