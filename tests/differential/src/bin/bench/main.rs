//! Time of ours and of the Rust: `cargo run --release -p differential --bin bench`. Alone it prints the whole
//! table, with `passes` its rows of passes, with `growth` the time by filtered positions as CSV.

#[cfg(oracle)]
mod blocks;
#[cfg(oracle)]
mod cells;
#[cfg(oracle)]
mod edges;
#[cfg(oracle)]
mod frame;
#[cfg(oracle)]
mod growth;
#[cfg(oracle)]
mod levels;
#[cfg(oracle)]
mod lines;
#[cfg(oracle)]
mod passes;
#[cfg(oracle)]
mod planes;
#[cfg(oracle)]
mod range;
#[cfg(oracle)]
mod row;
#[cfg(oracle)]
mod superblocks;

#[cfg(not(oracle))]
fn main() {
    eprintln!("the Rust is not at hand");
}

#[cfg(oracle)]
fn main() -> std::process::ExitCode {
    let mode = std::env::args().nth(1);
    match mode.as_deref() {
        None => table(),
        Some("passes") => passes(),
        Some("growth") => growth::csv(),
        Some(_) => {
            eprintln!("usage: bench [passes | growth]");
            return std::process::ExitCode::from(2);
        }
    }
    std::process::ExitCode::SUCCESS
}

#[cfg(oracle)]
fn table() {
    row::head();
    levels::rows();
    lines::rows();
    cells::rows();
    edges::rows();
    pass_rows();
}

#[cfg(oracle)]
fn passes() {
    row::head();
    pass_rows();
}

#[cfg(oracle)]
fn pass_rows() {
    passes::rows();
    frame::rows();
    range::rows();
}
