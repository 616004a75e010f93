//! Folders outside of the repository, and cargo in them.

use std::path::{Path, PathBuf};
use std::process::Command;
use std::{env, fs, process};

/// A folder that is removed at the end.
pub struct Folder(PathBuf);

impl Folder {
    pub fn new(name: &str) -> Folder {
        let path = env::temp_dir().join(format!("springspade-{name}-{}", process::id()));
        fs::create_dir(&path).unwrap();
        Folder(path)
    }

    pub fn path(&self, name: &str) -> PathBuf {
        self.0.join(name)
    }

    pub fn write(&self, name: &str, text: &str) {
        let path = self.path(name);
        fs::create_dir_all(path.parent().unwrap()).unwrap();
        fs::write(path, text).unwrap();
    }

    /// Copies a file or a folder.
    #[allow(dead_code, reason = "not every test copies")]
    pub fn copy(&self, from: &Path, name: &str) {
        let to = self.path(name);
        fs::create_dir_all(to.parent().unwrap()).unwrap();
        if from.is_dir() {
            for entry in fs::read_dir(from).unwrap() {
                let entry = entry.unwrap();
                let inner = format!("{name}/{}", entry.file_name().to_string_lossy());
                self.copy(&entry.path(), &inner);
            }
        } else {
            fs::copy(from, to).unwrap();
        }
    }
}

impl Drop for Folder {
    fn drop(&mut self) {
        fs::remove_dir_all(&self.0).unwrap();
    }
}

/// Whether cargo succeeds, and all that it says.
pub fn cargo(at: &Path, arguments: &[&str]) -> (bool, String) {
    let mut command = Command::new(env!("CARGO"));
    command.current_dir(at).arg("--offline").args(arguments);
    command.env("CARGO_TARGET_DIR", at.join("built")).env_remove("SPRINGSPADE_LIB");
    let output = command.output().unwrap();
    let said = [output.stdout, output.stderr].map(|said| String::from_utf8(said).unwrap()).concat();
    (output.status.success(), said)
}
