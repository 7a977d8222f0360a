//! `documents ROOT` holds the documents of the repository at ROOT to its code, and fails where they
//! differ.

use std::path::Path;
use std::process::ExitCode;

fn main() -> ExitCode {
    let arguments: Vec<String> = std::env::args().skip(1).collect();
    let [root] = &arguments[..] else {
        eprintln!("usage: documents ROOT, the root of the repository");
        return ExitCode::from(2);
    };
    match documents::faults(Path::new(root)) {
        Ok(faults) => {
            for fault in &faults {
                println!("{fault}");
            }
            println!("documents: {} faults", faults.len());
            ExitCode::from(u8::from(!faults.is_empty()))
        }
        Err(error) => {
            eprintln!("documents: {error}");
            ExitCode::from(2)
        }
    }
}
