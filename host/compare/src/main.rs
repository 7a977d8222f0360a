//! `compare [SEED]` compares each call of the library with the reference, prints how often each
//! call gave each number, and fails where something differs.

use std::env;
use std::process::ExitCode;

use compare::{Comparison, SEED};

fn main() -> ExitCode {
    let mut arguments = env::args().skip(1);
    let seed = match (arguments.next().map(|text| text.parse()), arguments.next()) {
        (None, _) => SEED,
        (Some(Ok(seed)), None) => seed,
        _ => {
            eprintln!("usage: compare [SEED], the seed a number from 0 to {}", u64::MAX);
            return ExitCode::from(2);
        }
    };
    let comparison = Comparison::run(seed);
    print!("{comparison}");
    let faults = comparison.faults();
    for fault in &faults {
        println!("FAULT: {fault}");
    }
    println!("seed {seed}: {} answers compared, {} faults", comparison.compared(), faults.len());
    ExitCode::from(u8::from(!faults.is_empty()))
}
