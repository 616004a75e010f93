//! Each file of the Rust becomes `pub mod NAME { its text, byte for byte }`.
//! hooks.rs stands below the text of superblock_loop_filter, and so sees its private items.
//! `observed_runs` is that text once more, in which the kernel has another name: runs.rs stands below it and
//! has a kernel of the old name. So the Rust's own grouping runs as it is, and its calls are seen.

use std::{env, fs, path::Path};

const NAMES: [&str; 10] = [
    "adaptive_filter_strength",
    "dequant",
    "filter_size",
    "header",
    "idct",
    "loop_filter",
    "partition",
    "residual",
    "superblock_filter",
    "superblock_loop_filter",
];

/// The kernel's definition, which must stand in the text once, and the same with its other name.
const KERNEL: &str = "fn filter_run<T: Px>(";
const UNSEEN: &str = "fn filter_run_unseen<T: Px>(";

fn main() {
    println!("cargo::rustc-check-cfg=cfg(oracle)");
    println!("cargo::rerun-if-env-changed=OXIDEAV_VP9_SRC");
    println!("cargo::rerun-if-changed=src/hooks.rs");
    println!("cargo::rerun-if-changed=src/runs.rs");
    let manifest = env::var("CARGO_MANIFEST_DIR").unwrap();
    let source = env::var("OXIDEAV_VP9_SRC")
        .unwrap_or_else(|_| format!("{manifest}/../../../shared/docs/src/src"));
    println!("cargo::rerun-if-changed={source}");
    if !Path::new(&source).is_dir() {
        println!(
            "cargo::warning=the Rust is not at {source} (OXIDEAV_VP9_SRC names another place): what needs it is passed over"
        );
        return;
    }
    let hooks = fs::read_to_string("src/hooks.rs").unwrap();
    let mut modules = String::new();
    for name in NAMES {
        let text = text(&source, name);
        let hooks = if name == "superblock_loop_filter" { &hooks } else { "" };
        modules += &format!("pub mod {name} {{\n{text}\n{hooks}\n}}\n");
    }
    modules += &observed_runs(&text(&source, "superblock_loop_filter"), &hooks);
    let out = env::var("OUT_DIR").unwrap();
    fs::write(format!("{out}/modules.rs"), modules).unwrap();
    println!("cargo::rustc-cfg=oracle");
    println!("cargo::metadata=present=1");
}

fn text(source: &str, name: &str) -> String {
    let file = format!("{source}/{name}.rs");
    fs::read_to_string(&file).unwrap_or_else(|e| panic!("{file}: {e}"))
}

fn observed_runs(text: &str, hooks: &str) -> String {
    let found = text.matches(KERNEL).count();
    assert!(found == 1, "superblock_loop_filter.rs has `{KERNEL}` {found} times, not once");
    let text = text.replace(KERNEL, UNSEEN);
    let runs = fs::read_to_string("src/runs.rs").unwrap();
    format!("pub mod observed_runs {{\n{text}\n{hooks}\n{runs}\n}}\n")
}
