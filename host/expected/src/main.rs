//! What each program of the library must print, computed by the reference alone, and the stream
//! that one of them reads.
//!
//! `expected --check CRATES` compares each stored file below the folder `CRATES` with the expected
//! one, a line a file; the exit status is 1 where one differs. `expected --write CRATES` stores
//! them, and `expected FILE` prints one, as `expected run_wire/stdout`.

mod cursor;
mod limits;
mod packets;
mod readers;
mod replay;
mod session;
mod vectors;
mod wire;

use std::io::{self, Write};
use std::path::Path;
use std::process::ExitCode;
use std::{env, fs};

type Contents = fn() -> Vec<u8>;

/// The stored files, each with what it must hold.
const FILES: [(&str, Contents); 8] = [
    ("run_wire/stdout", || wire::lines().into()),
    ("vectors/stdout", || vectors::lines().into()),
    ("run_session/stdout", || session::lines().into()),
    ("run_limits/stdout", || limits::lines().into()),
    ("run_cursor/stdout", || cursor::lines().into()),
    ("run_packets/stdout", || readers::lines().into()),
    ("replay/data/stream", replay::stream),
    ("replay/stdout", || replay::lines().into()),
];

fn main() -> ExitCode {
    let arguments: Vec<String> = env::args().skip(1).collect();
    match arguments.iter().map(String::as_str).collect::<Vec<_>>()[..] {
        ["--check", crates] => check(Path::new(crates)),
        ["--write", crates] => write(Path::new(crates)),
        [file] => print(file),
        _ => {
            eprintln!("usage: expected --check CRATES | expected --write CRATES | expected FILE");
            ExitCode::from(2)
        }
    }
}

fn check(crates: &Path) -> ExitCode {
    let mut differs = false;
    for (file, contents) in FILES {
        let same = fs::read(crates.join(file)).is_ok_and(|stored| stored == contents());
        println!("{file}: {}", if same { "as expected" } else { "DIFFERS" });
        differs |= !same;
    }
    ExitCode::from(differs as u8)
}

fn write(crates: &Path) -> ExitCode {
    for (file, contents) in FILES {
        if let Err(fault) = fs::write(crates.join(file), contents()) {
            eprintln!("expected: cannot write {file}: {fault}");
            return ExitCode::from(2);
        }
    }
    ExitCode::SUCCESS
}

fn print(file: &str) -> ExitCode {
    let Some((_, contents)) = FILES.iter().find(|(name, _)| *name == file) else {
        eprintln!("expected: no file {file:?}");
        return ExitCode::from(2);
    };
    match io::stdout().write_all(&contents()) {
        Ok(()) => ExitCode::SUCCESS,
        Err(_) => ExitCode::from(2),
    }
}
