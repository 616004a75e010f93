//! Links `libspringspade.a`, which `tools/archive` writes.

use std::path::{Path, PathBuf};
use std::{env, fs, io};

/// Written beside the archive: the files that it is made from, a line for each, from the repository's root on.
const SOURCES: &str = "libspringspade.sources";

fn main() {
    println!("cargo::rerun-if-env-changed=SPRINGSPADE_LIB");
    println!("cargo::rerun-if-changed=build.rs");
    let repository = Path::new(&variable("CARGO_MANIFEST_DIR")).join("../..");
    let folder =
        env::var_os("SPRINGSPADE_LIB").map_or_else(|| repository.join("target/lib"), PathBuf::from);
    if let Err(refusal) = link(&repository, &folder) {
        println!("cargo::error={refusal}");
    }
}

fn link(repository: &Path, folder: &Path) -> Result<(), String> {
    let target = (variable("CARGO_CFG_TARGET_ARCH"), variable("CARGO_CFG_TARGET_OS"));
    if target != ("x86_64".to_string(), "linux".to_string()) {
        let (arch, os) = target;
        return Err(format!("libspringspade.a is for x86-64 Linux, not for {arch} {os}"));
    }
    let archive = folder.join("libspringspade.a");
    println!("cargo::rerun-if-changed={}", archive.display());
    if !archive.is_file() {
        // Checks and documentation need no archive. A link does, and fails with the name that is asked for here.
        println!("cargo::warning=there is no {}: `tools/archive` builds it", archive.display());
        println!("cargo::rustc-link-lib=dylib=springspade, which tools/archive builds");
        return Ok(());
    }
    if let Some(source) = newer_source(repository, folder, &archive).map_err(|e| e.to_string())? {
        let archive = archive.display();
        return Err(format!("{archive} is older than {source}: run `tools/archive`"));
    }
    println!("cargo::rustc-link-search=native={}", folder.display());
    println!("cargo::rustc-link-lib=static=springspade");
    Ok(())
}

/// A source that was changed, or went, after the archive was made. An archive that came alone has no list.
fn newer_source(
    repository: &Path,
    folder: &Path,
    archive: &Path,
) -> Result<Option<String>, io::Error> {
    let made = fs::metadata(archive)?.modified()?;
    let Ok(sources) = fs::read_to_string(folder.join(SOURCES)) else {
        return Ok(None);
    };
    let mut newer = None;
    for source in sources.lines() {
        let file = repository.join(source);
        println!("cargo::rerun-if-changed={}", file.display());
        let changed = fs::metadata(file).and_then(|file| file.modified());
        if changed.map_or(true, |changed| made < changed) {
            newer.get_or_insert_with(|| source.to_string());
        }
    }
    Ok(newer)
}

fn variable(name: &str) -> String {
    env::var(name).unwrap_or_else(|_| panic!("cargo sets {name}"))
}
