// Not from the Rust: a kernel that notes the runs it is called for, below the text of
// superblock_loop_filter in which the Rust's own kernel has another name.

/// Edge, first position, positions, filter size and level.
pub type HookRun = (u32, u32, u32, u8, u8);

std::thread_local! {
    static RUNS: std::cell::RefCell<Vec<HookRun>> = const { std::cell::RefCell::new(Vec::new()) };
}

/// Stands where the Rust's kernel stood. It leaves the window.
fn filter_run<T: Px>(
    _: &mut PlaneWindow<'_, T>,
    _: u8,
    _: &crate::superblock_filter::SuperblockFilterGeometry,
    _: (u8, u32, u32),
    _: u32,
    _: u32,
    edge: u32,
    (i0, n, f_size, strength): (u32, u32, u8, FilterStrength),
) {
    RUNS.with_borrow_mut(|runs| runs.push((edge, i0, n, f_size, strength.lvl)));
}

/// The runs of a pass, in the order of the Rust's calls. They do not depend on the window.
pub fn hook_runs(
    cells: &[HookCell],
    base: u32,
    mi_cols: u32,
    mi_rows: u32,
    ssx: u8,
    ssy: u8,
    depth: u8,
    sharp: u8,
    plane: u8,
    pass: u8,
    row: u32,
    col: u32,
) -> Vec<HookRun> {
    let cells = HookRow::from_cells(cells, base, mi_cols, mi_rows, ssx, ssy, depth, sharp);
    // A pass that panicked may have left some.
    RUNS.take();
    cells.pass(&mut [0u16], 1, 1, 1, 0, plane, pass, row, col);
    RUNS.take()
}
