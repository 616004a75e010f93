//! What a sheet reaches: the cases that random sheets are made for.

use super::Sheet;
use super::expected::answer;
use super::runs::Run;
use crate::passes::Pass;
use crate::positions::{Position, decided};
use springspade::Refused;
use std::collections::BTreeMap;

/// How often each case was met, by its name. One that was not met has 0.
#[derive(Debug, Clone, Default)]
pub struct Reached(pub BTreeMap<String, usize>);

impl Reached {
    fn count(&mut self, name: &str, holds: bool) {
        *self.0.entry(name.to_string()).or_default() += usize::from(holds);
    }
}

/// Counts what the sheet of these bytes reaches.
pub fn count(reached: &mut Reached, bytes: &[u8]) {
    match answer(bytes) {
        Err(refused) => refusal(reached, bytes, refused),
        Ok((sheet, runs)) => {
            let pass = sheet.as_pass();
            let positions = decided(&pass);
            reached.count("accepted", true);
            frames(reached, &sheet, &pass);
            reached.count("no runs", runs.is_empty());
            reached.count("level 0", positions.iter().any(|at| at.cell.level == 0));
            runs.iter().for_each(|run| one(reached, &positions, run));
            runs.windows(2).for_each(|pair| neighbours(reached, &positions, pair[0], pair[1]));
            let Sheet { sub_x, sub_y, plane, pass, .. } = sheet;
            let kind = format!("subsampling {sub_x} {sub_y}, plane {plane}, pass {pass}");
            reached.count(&format!("runs, {kind}"), !runs.is_empty());
        }
    }
}

fn refusal(reached: &mut Reached, bytes: &[u8], Refused { number, place }: Refused) {
    reached.count(&format!("refused {number}"), true);
    let Some(sheet) = Sheet::read(bytes) else {
        return reached.count("refused 7, under 8 bytes", true);
    };
    let sub_along = if sheet.pass == 0 { sheet.sub_y } else { sheet.sub_x };
    let is_halved = sheet.plane > 0 && sub_along == 1;
    let late = number == 14 && place >= 64;
    reached.count("refused 14, at a later edge of 32 positions", late && is_halved);
    reached.count("refused 14, at a later edge of 64 positions", late && !is_halved);
    if number == 11 {
        let column = place as usize % sheet.mi_cols;
        reached.count("refused 11, in another superblock", column / 8 != sheet.col_over_8);
    }
}

/// What the frame and its cells are like.
fn frames(reached: &mut Reached, sheet: &Sheet, pass: &Pass) {
    let (row, col) = (pass.at.mi_row, pass.at.mi_col);
    reached.count("frame ends inside the superblock, right", sheet.mi_cols < col + 8);
    reached.count("frame ends inside the superblock, below", sheet.mi_rows < row + 8);
    reached.count("row beyond the first superblock", row > 0);
    reached.count("column beyond the first superblock", col > 0);
    reached.count("row of four digits", row > 1000);
    reached.count("words behind the row's", sheet.words.len() > sheet.row_cells());
    let absent = pass.cells[..sheet.row_cells()].iter().any(|word| word >> 18 & 1 == 0);
    reached.count("accepted with a cell without level", absent);
}

/// What one run is like.
fn one(reached: &mut Reached, positions: &[Position], run: &Run) {
    let Run { edge, first, count, size, level } = *run;
    reached.count(&format!("run of {count} positions, size {size}"), true);
    reached.count("run at edge 0", edge == 0);
    reached.count("run at an edge of two digits", edge > 9);
    reached.count("run at a level of one digit", level < 10);
    reached.count("run at level 63", level == 63);
    let place = positions.partition_point(|at| (at.edge, at.i) < (edge, first));
    let cells = &positions[place..][..count];
    reached.count(
        "run over cells that are not equal",
        cells.iter().any(|at| at.cell != cells[0].cell),
    );
}

/// Why two runs that follow one another are not one.
fn neighbours(reached: &mut Reached, positions: &[Position], a: Run, b: Run) {
    let same = (a.size, a.level) == (b.size, b.level);
    let end = a.first + a.count;
    if a.edge != b.edge {
        let ends = b.edge == a.edge + 1 && b.first == 0 && a.count + b.count <= 16;
        return reached.count("two edges that could join", same && ends);
    }
    if end < b.first {
        let between = |at: &&Position| at.edge == a.edge && (end..b.first).contains(&at.i);
        let decided = positions.iter().filter(between).count();
        let small = same && a.count + b.count <= 16;
        reached.count("a gap of level 0 between equal runs", small && decided == b.first - end);
        reached.count("a gap of no edge between equal runs", small && decided == 0);
        return;
    }
    reached.count("cut at 16 positions", same && a.count == 16);
    reached.count("apart by level alone", a.size == b.size && a.level != b.level);
    reached.count("apart by size alone", a.size != b.size && a.level == b.level);
}
