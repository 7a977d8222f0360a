//! Compares each call of the library with the independent reference, on generated inputs.
//!
//! For each input the answer, the refusal's number and place, the records afterwards and every lent
//! byte are compared, through the wrapper of `host/ashlarsilk` and through its module `sys`, which
//! takes records of any length. The inputs come from a generator with a seed, so that a run can be
//! repeated. [`Comparison::faults`] is empty if nothing differs, each call gave every number that
//! paper 01 lets it give, and none gave another.
//!
//! A record is written only where it changes. So each call that changes a record in place is also
//! lent records in an unusual form, with flags that are neither 0 nor 1: they must be left so by an
//! accepted call that changes nothing in them, and such calls must have occurred.
//!
//! Timestamp and SSRC of a packet are ignored (02 §2). So packets have any there, and each call on
//! a packet is made once more, from the same state, on the packet with others: the answer and every
//! byte that is left must be the same, whatever the reference says of them.

#![forbid(unsafe_code)]

mod cursors;
mod forms;
mod layout;
mod limits_values;
mod making;
mod messages;
mod pairs;
mod random;
mod sessions;
mod tally;

use std::fmt;

use random::Random;
use tally::Tally;
pub use tally::{PacketCalls, PositionCall, StoreCall};

/// The seed where none is named.
pub const SEED: u64 = 7250;

/// What a run found.
pub struct Comparison {
    tally: Tally,
}

impl Comparison {
    /// Compares all calls on the inputs of this seed.
    pub fn run(seed: u64) -> Self {
        let mut tally = Tally::default();
        let mut random = Random::new(seed);
        messages::run(&mut tally, &mut random);
        sessions::run(&mut tally, &mut random);
        limits_values::run(&mut tally, &mut random);
        cursors::run(&mut tally, &mut random);
        Comparison { tally }
    }

    /// Compares these calls in place of the library's, on so many packets each.
    pub fn of_packets(packet_calls: PacketCalls, seed: u64, times: usize) -> Self {
        let mut tally = Tally::of(packet_calls);
        cursors::any_packets(&mut tally, &mut Random::new(seed), times);
        Comparison { tally }
    }

    /// The number of answers compared with the reference's.
    pub fn compared(&self) -> u64 {
        self.tally.compared()
    }

    /// What is wrong, a text each.
    pub fn faults(&self) -> Vec<String> {
        self.tally.faults()
    }
}

/// The table of answers: a line a call, a column a number; in the last column how often a record
/// shorter than its layout was refused with 10. Then a table of the records lent in an unusual
/// form: how often each was left alone, and how often written. Last a table of the pairs of packets
/// that differ only in timestamp and SSRC.
impl fmt::Display for Comparison {
    fn fmt(&self, f: &mut fmt::Formatter<'_>) -> fmt::Result {
        self.tally.fmt(f)
    }
}
