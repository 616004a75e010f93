//! A row of the table.

use std::time::Instant;

pub fn head() {
    println!("{:<44} {:>9} {:>9} {:>6}", "case", "ours ns", "Rust ns", "ratio");
}

/// The least time of a call in many runs, ours and the Rust's in turn. A run gives its nanoseconds.
pub fn row(
    name: &str,
    runs: usize,
    calls: usize,
    ours: impl FnMut() -> f64,
    rust: impl FnMut() -> f64,
) {
    let (a, b) = least(runs, ours, rust);
    let (a, b) = (a / calls as f64, b / calls as f64);
    println!("{name:<44} {a:>9.2} {b:>9.2} {:>6.2}", a / b);
}

/// A row for what the Rust does not do. Its numbers are small.
pub fn alone(name: &str, runs: usize, calls: usize, ours: impl FnMut() -> f64) {
    let (a, _) = least(runs, ours, || f64::MAX);
    println!("{name:<44} {:>9.3} {:>9} {:>6}", a / calls as f64, "-", "-");
}

/// The least nanoseconds of ours and of the Rust's, run in turn.
pub fn least(
    runs: usize,
    mut ours: impl FnMut() -> f64,
    mut rust: impl FnMut() -> f64,
) -> (f64, f64) {
    let (mut a, mut b) = (f64::MAX, f64::MAX);
    for _ in 0..runs {
        a = a.min(ours());
        b = b.min(rust());
    }
    (a, b)
}

pub fn nanoseconds(run: impl FnOnce()) -> f64 {
    let start = Instant::now();
    run();
    start.elapsed().as_secs_f64() * 1e9
}
