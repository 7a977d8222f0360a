//! Measures the library's calls beside the same work in plain Rust, the independent second program,
//! and, for work on whole fragments and pictures, beside a bare copy of the bytes.
//!
//! All in one run: `cargo run --release --package bench`. The table is in Markdown. A row that is
//! behind its goal says so: no slower than plain Rust; fragments of 16 KiB and more stored within 4
//! times the bare copy; completeness of 262,144 marks within 2 times.

mod cursor;
mod messages;
mod page;
mod table;
mod timing;

use std::hint::black_box;

use table::Table;

/// The rounds of a run: a moment in which something else has the machine is over by the next.
const ROUNDS: usize = 8;

fn main() {
    let mut table = Table::default();
    for depth in 0..ROUNDS {
        deeper(depth, &mut || round(&mut table));
    }
    table.print();
}

/// Measures each row once.
fn round(table: &mut Table) {
    table.begin();
    messages::messages(table);
    messages::steps(table);
    messages::limits(table);
    cursor::positions(table);
    cursor::storing(table);
    cursor::completeness(table);
}

/// Runs a round below so many frames of some 1,000 bytes, so that each round has its stack at other
/// places of a page: where a variable of the caller lies across two pages, a call of 14 nanoseconds
/// takes 27.
#[inline(never)]
fn deeper(depth: usize, round: &mut dyn FnMut()) {
    let frame = black_box([0; 1000]);
    match depth.checked_sub(1) {
        Some(depth) => deeper(depth, round),
        None => round(),
    }
    black_box(&frame);
}
