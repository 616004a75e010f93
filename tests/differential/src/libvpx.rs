//! What libvpx computes: strength.tsv, the lines of lines.bin.xz and the frames of quick.tar.xz, and a large one.

mod calls;
mod frame;
pub mod planes;

use crate::lines::Line;
pub use frame::{Cell, Frame, OPEN, plane_size};
use springspade::Strength;
use std::path::{Path, PathBuf};
use std::process::Command;
use std::{array, env, fs};

pub struct Filtered {
    pub line: Line,
    /// The samples that the filter leaves.
    pub after: [u16; 16],
}

/// Where libvpx's vectors are, if they are at hand.
pub fn folder() -> Option<PathBuf> {
    let folder = env::var_os("SPRINGSPADE_VECTORS").map_or(
        Path::new(env!("CARGO_MANIFEST_DIR")).join("../../../shared/vectors"),
        PathBuf::from,
    );
    folder.is_dir().then_some(folder)
}

/// Sharpness, level, limit, blimit, thresh.
pub fn strengths(folder: &Path) -> Vec<[u8; 5]> {
    let text = fs::read_to_string(folder.join("strength.tsv")).unwrap();
    let record = |line: &str| {
        let fields: Vec<u8> = line.split('\t').map(|n| n.parse().unwrap()).collect();
        fields.try_into().unwrap()
    };
    text.lines().skip(1).map(record).collect()
}

fn unpacked(file: &Path) -> Vec<u8> {
    let xz = Command::new("xz").arg("-dc").arg(file).output().unwrap();
    assert!(xz.status.success());
    xz.stdout
}

pub fn lines(folder: &Path) -> Vec<Filtered> {
    let lines = unpacked(&folder.join("lines.bin.xz"));
    let (records, rest) = lines.as_chunks();
    assert!(rest.is_empty());
    records.iter().map(filtered).collect()
}

fn filtered(record: &[u8; 72]) -> Filtered {
    let &[depth, size, limit, blimit, thresh, 0, 0, 0, ..] = record else {
        panic!("{record:?}");
    };
    let sample = |k: usize| u16::from_le_bytes([record[8 + 2 * k], record[9 + 2 * k]]);
    let strength = Strength { limit, blimit, thresh };
    Filtered {
        line: Line { depth, size, strength, taps: array::from_fn(sample) },
        after: array::from_fn(|k| sample(16 + k)),
    }
}

/// A frame of a film in 1080p, which is not among the small ones.
pub const LARGE: &str = "mix-0000.lfd.xz";

/// That frame, if it is at hand.
pub fn large_frame(folder: &Path) -> Option<Frame> {
    let file = folder.join(LARGE);
    file.is_file().then(|| Frame::from_bytes(LARGE.into(), &unpacked(&file)))?
}

/// The frames by name. Those of filter level 0 are left out: a decoder does not filter them.
pub fn frames(folder: &Path) -> Vec<Frame> {
    frames_and_unfiltered(folder).0
}

/// The same, and how many are left out.
pub fn frames_and_unfiltered(folder: &Path) -> (Vec<Frame>, usize) {
    let caller = (std::process::id(), std::thread::current().id());
    let out = env::temp_dir().join(format!("springspade-{caller:?}"));
    fs::create_dir_all(&out).unwrap();
    let archive = folder.join("quick.tar.xz");
    let tar = Command::new("tar").arg("xJf").arg(archive).arg("-C").arg(&out).status();
    assert!(tar.unwrap().success());
    let mut files: Vec<PathBuf> = fs::read_dir(&out).unwrap().map(|f| f.unwrap().path()).collect();
    files.sort();
    let frames: Vec<Frame> = files.iter().filter_map(|file| Frame::read(file)).collect();
    fs::remove_dir_all(&out).unwrap();
    let unfiltered = files.len() - frames.len();
    (frames, unfiltered)
}
