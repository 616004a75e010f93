//! The build script of the Rust crate: without an archive, with one, with one that is too old, for another machine.

mod common;

use border::root;
use common::{Folder, cargo};
use std::fs;
use std::time::{Duration, SystemTime};

/// A copy of the crate, in a repository that has one source, and no archive yet.
fn repository(name: &str) -> Folder {
    let folder = Folder::new(name);
    for file in ["Cargo.toml", "build.rs", "src", "examples"] {
        let crate_folder = "rust/springspade";
        folder.copy(&root().join(crate_folder).join(file), &format!("{crate_folder}/{file}"));
    }
    folder.write("crates/base/src/lib.rt", "");
    folder
}

/// What `tools/archive` writes, made so many seconds ago.
fn put_archive(folder: &Folder, seconds: u64) {
    folder.copy(&root().join("target/lib/libspringspade.a"), "target/lib/libspringspade.a");
    folder.write("target/lib/libspringspade.sources", "crates/base/src/lib.rt\n");
    let archive = fs::File::options().write(true).open(folder.path("target/lib/libspringspade.a"));
    let made = SystemTime::now() - Duration::from_secs(seconds);
    archive.unwrap().set_modified(made).unwrap();
}

#[test]
fn without_an_archive_checks_pass_and_a_link_names_the_command() {
    let folder = repository("absent");
    let at = folder.path("rust/springspade");
    let (has_clippy, _) = cargo(&at, &["clippy", "--version"]);
    let clippy: &[&str] = &["clippy", "--all-targets", "--", "-D", "warnings"];
    let commands: [&[&str]; 3] =
        [&["check"], &["doc"], if has_clippy { clippy } else { &["check"] }];
    for command in commands {
        let (passed, said) = cargo(&at, command);
        assert!(passed && said.contains("`tools/archive` builds it"), "{said}");
    }
    let (passed, said) = cargo(&at, &["build", "--example", "frame"]);
    assert!(!passed && said.contains("springspade, which tools/archive builds"), "{said}");
}

#[test]
fn a_source_that_is_newer_than_the_archive_is_refused() {
    let folder = repository("older");
    let at = folder.path("rust/springspade");
    put_archive(&folder, 0);
    let (passed, said) = cargo(&at, &["run", "--example", "frame"]);
    assert!(passed, "{said}");

    folder.write("crates/base/src/lib.rt", "// changed");
    put_archive(&folder, 60);
    for command in ["check", "build"] {
        let (passed, said) = cargo(&at, &[command]);
        let refusal = "libspringspade.a is older than crates/base/src/lib.rt: run `tools/archive`";
        assert!(!passed && said.contains(refusal), "{said}");
    }

    put_archive(&folder, 0);
    let (passed, said) = cargo(&at, &["check"]);
    assert!(passed, "{said}");
    fs::remove_file(folder.path("crates/base/src/lib.rt")).unwrap();
    let (passed, said) = cargo(&at, &["check"]);
    assert!(!passed && said.contains("older than crates/base/src/lib.rt"), "{said}");
}

#[test]
fn another_machine_is_refused() {
    let folder = repository("machine");
    put_archive(&folder, 0);
    let target = ["check", "--target", "aarch64-unknown-linux-gnu"];
    let (passed, said) = cargo(&folder.path("rust/springspade"), &target);
    let refusal = "libspringspade.a is for x86-64 Linux, not for aarch64 linux";
    assert!(!passed && said.contains(refusal), "{said}");
}
