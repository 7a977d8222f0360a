//! The command line: `reference list FILE` prints the session listing of a recording.
//!
//! The exit status is 0 for a recording without a refusal, 1 for one with a refusal, and 2 where
//! the arguments or the file are at fault, with one line on standard error.

use std::env;
use std::ffi::OsString;
use std::fs::File;
use std::io::{self, BufReader, BufWriter, Write};
use std::path::Path;
use std::process::ExitCode;

use reference::listing::{self, Line};

const USAGE: &str = "usage: reference list FILE";

fn main() -> ExitCode {
    let arguments: Vec<OsString> = env::args_os().skip(1).collect();
    run(&arguments).unwrap_or_else(|fault| {
        eprintln!("reference: {fault}");
        ExitCode::from(2)
    })
}

/// Runs the subcommand that the first argument names.
fn run(arguments: &[OsString]) -> Result<ExitCode, String> {
    let [subcommand, arguments @ ..] = arguments else {
        return Err(format!("no subcommand given; {USAGE}"));
    };
    match subcommand.to_str() {
        Some("list") => list(arguments),
        _ => Err(format!("no subcommand {subcommand:?}; {USAGE}")),
    }
}

/// `list FILE`: prints the session listing of the recording in the file.
fn list(arguments: &[OsString]) -> Result<ExitCode, String> {
    let [file] = arguments else {
        return Err(format!("list takes one file; {USAGE}"));
    };
    let path = Path::new(file);
    let input = File::open(path).map_err(|fault| format!("cannot open {path:?}: {fault}"))?;
    let mut output = BufWriter::new(io::stdout().lock());
    let last = listing::list(BufReader::with_capacity(1 << 16, input), &mut output)
        .and_then(|last| output.flush().map(|()| last))
        .map_err(|fault| format!("cannot list {path:?}: {fault}"))?;
    Ok(match last {
        Line::Refused { .. } => ExitCode::from(1),
        _ => ExitCode::SUCCESS,
    })
}
