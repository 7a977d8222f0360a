//! Lines on standard output.

use std::fmt::Display;
use std::io::{self, Write};
use std::process;

/// Prints a line, whole: lines of different threads don't mix. Where nobody reads them any more,
/// the program ends with exit status 2.
pub fn line(text: impl Display) {
    let text = format!("{text}\n");
    if io::stdout().lock().write_all(text.as_bytes()).is_err() {
        process::exit(2);
    }
}
