//! A frame around libvpx's loop filter: an `.lfd` file.

use crate::cases::{Case, LEVEL_40, SEG_LVL_ALT_L};
use crate::passes::subsampling;
use crate::rows::{Block, Row};
use std::{array, fs, path::Path};

pub struct Frame {
    pub name: String,
    pub profile: u8,
    pub case: Case,
    pub levels: [u8; 64],
    pub frame: springspade::Frame,
    /// In raster order.
    pub cells: Vec<Cell>,
    /// The planes before the filter and after it, row by row.
    pub before: [Vec<u16>; 3],
    pub after: [Vec<u16>; 3],
    /// By plane and pass.
    pub(super) calls: [[Vec<u8>; 2]; 3],
}

/// A cell's mode info, and the level and chroma transform that libvpx has for it.
pub struct Cell {
    pub block: Block,
    pub level: u8,
    pub uvtx: u8,
}

/// An entry that is not compared.
pub const OPEN: u8 = 255;

impl Frame {
    /// None for a frame of filter level 0.
    pub fn read(file: &Path) -> Option<Frame> {
        let name = file.file_name().unwrap().to_string_lossy().into_owned();
        Frame::from_bytes(name, &fs::read(file).unwrap())
    }

    /// The same for the bytes of such a file.
    pub(super) fn from_bytes(name: String, bytes: &[u8]) -> Option<Frame> {
        assert_eq!(&bytes[..8], b"VP9LFD02", "{name}");
        let field = |k: usize| i32::from_le_bytes(bytes[8 + 4 * k..][..4].try_into().unwrap());
        let flag = |k: usize| field(k) != 0;
        if field(8) == 0 {
            return None;
        }
        let profile = field(0).try_into().unwrap();
        let mut case = Case {
            level: field(8).try_into().unwrap(),
            delta_enabled: flag(10),
            delta_update: flag(11),
            deltas: array::from_fn(|i| field(12 + i).try_into().unwrap()),
            present: [true; 6],
            seg_enabled: flag(18),
            abs_or_delta_update: flag(19),
            ..LEVEL_40
        };
        for segment in 0..8 {
            case.feature_enabled[segment][SEG_LVL_ALT_L] = flag(20 + segment);
            case.feature_data[segment][SEG_LVL_ALT_L] = field(28 + segment).try_into().unwrap();
        }
        let mut levels: [u8; 64] = bytes[200..264].try_into().unwrap();
        if case.delta_enabled {
            // libvpx never writes (segment, intra, mode type 1) then.
            for segment in 0..8 {
                levels[segment * 8 + 1] = OPEN;
            }
        }
        let frame = springspade::Frame {
            sharpness: field(9).try_into().unwrap(),
            bit_depth: field(1).try_into().unwrap(),
            sub_x: field(2).try_into().unwrap(),
            sub_y: field(3).try_into().unwrap(),
            mi_cols: field(4).try_into().unwrap(),
            mi_rows: field(5).try_into().unwrap(),
        };
        let (cells, mut rest) = bytes[264..].split_at(8 * frame.mi_rows * frame.mi_cols);
        let cells = cells.as_chunks().0.iter().map(cell).collect();
        let samples = [0, 1, 2].map(|plane| {
            let (width, height) = plane_size(&frame, plane);
            width * height
        });
        let mut planes = || samples.map(|samples| plane(rest.split_off(..2 * samples).unwrap()));
        let (before, after) = (planes(), planes());
        let calls = samples.map(|samples| {
            // Of four samples across an edge one is its own.
            [(); 2].map(|()| rest.split_off(..samples / 4).unwrap().to_vec())
        });
        assert!(rest.is_empty(), "{name}");
        Some(Frame { name, profile, case, levels, frame, cells, before, after, calls })
    }

    /// The rows from `base` on.
    pub fn row(&self, base: usize) -> Row {
        // No cell reads an open entry.
        let levels = self.levels.map(|level| if level == OPEN { 0 } else { level });
        let mut row = Row { frame: self.frame, base, levels, blocks: Default::default() };
        let cells = &self.cells[base * self.frame.mi_cols..][..row.cells()];
        row.blocks.extend(cells.iter().map(|cell| cell.block));
        row
    }
}

fn cell(bytes: &[u8; 8]) -> Cell {
    let &[mi_size, tx_size, skip, reference, y_mode, segment_id, level, uvtx] = bytes;
    let ref_frame = reference.into();
    Cell { block: Block { mi_size, tx_size, skip, ref_frame, y_mode, segment_id }, level, uvtx }
}

fn plane(bytes: &[u8]) -> Vec<u16> {
    bytes.as_chunks().0.iter().map(|&sample| u16::from_le_bytes(sample)).collect()
}

/// Width and height of a plane.
pub fn plane_size(frame: &springspade::Frame, plane: u8) -> (usize, usize) {
    let (sub_x, sub_y) = subsampling(frame, plane);
    ((8 * frame.mi_cols) >> sub_x, (8 * frame.mi_rows) >> sub_y)
}
