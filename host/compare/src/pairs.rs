//! Packets in pairs that differ only in timestamp and SSRC, each taken from the same state (02 §2):
//! how often a call got such a pair, by its answer, and how often it told the two apart.

use std::fmt;

use crate::tally::Call::{self, CursorPosition, CursorStore};
use crate::tally::{write_heading, NUMBERS};

/// The calls that take packets.
const CALLS: [Call; 2] = [CursorPosition, CursorStore];

/// For each call, how many pairs got each number, and how many were told apart.
#[derive(Default)]
pub struct Pairs {
    counts: [[u64; NUMBERS]; CALLS.len()],
    told_apart: [u64; CALLS.len()],
}

impl Pairs {
    /// Counts a pair, whose answer has this number.
    pub fn count(&mut self, call: Call, number: u8, same: bool) {
        let index = CALLS.iter().position(|&of| of == call).expect("a call that takes packets");
        self.counts[index][usize::from(number)] += 1;
        self.told_apart[index] += u64::from(!same);
    }

    /// What is wrong: pairs that were told apart, and numbers that a call can give and that no pair
    /// got.
    pub fn faults(&self) -> Vec<String> {
        let mut faults = Vec::new();
        for (call, (counts, &told_apart)) in
            CALLS.iter().zip(self.counts.iter().zip(&self.told_apart))
        {
            let name = call.name();
            if told_apart > 0 {
                faults.push(format!("{name}: {told_apart} pairs told apart by timestamp or SSRC"));
            }
            let never = call.numbers().iter().filter(|&&number| counts[usize::from(number)] == 0);
            faults.extend(never.map(|number| format!("{name}: no pair of packets got {number}")));
        }
        faults
    }
}

/// The table: a line a call, a column a number, and the number of pairs.
impl fmt::Display for Pairs {
    fn fmt(&self, f: &mut fmt::Formatter<'_>) -> fmt::Result {
        writeln!(f, "pairs of packets that differ only in timestamp and SSRC, by their answer")?;
        write_heading(f, "call", "pairs")?;
        for (call, counts) in CALLS.iter().zip(&self.counts) {
            call.write_line(f, counts, counts.iter().sum())?;
        }
        Ok(())
    }
}
