//! Writes the fixed vectors: `cargo run --release -p differential --bin vectors -- DIR`.

use differential::vectors;
use std::{env, fs, path::PathBuf, process::ExitCode};

fn main() -> ExitCode {
    let Some(folder) = env::args_os().nth(1).map(PathBuf::from) else {
        eprintln!("usage: vectors DIR");
        return ExitCode::from(2);
    };
    fs::create_dir_all(&folder).unwrap();
    let mut code = ExitCode::SUCCESS;
    for (name, contents) in vectors::files() {
        match contents {
            Some(bytes) => {
                fs::write(folder.join(name), &bytes).unwrap();
                println!("{name}: {} bytes", bytes.len());
            }
            None => {
                eprintln!("{name}: passed over, its source is not at hand");
                code = ExitCode::FAILURE;
            }
        }
    }
    code
}
