//! Records lent in an unusual form, a flag as another byte than 0 and 1 or a state above 5: how
//! often a call left such a record alone, and how often it wrote it.

use std::fmt;

use crate::layout::Left;
use crate::tally::Call::{self, CursorPosition, CursorStore, SessionMessage, SessionStep};

/// What a call can do with a record: leave each byte of it as lent, or write it.
#[derive(Clone, Copy, PartialEq, Eq)]
enum Can {
    Leave,
    Write,
    Both,
}
use Can::{Both, Leave, Write};

/// Each call that changes a record in place, with the record and what the call was given. A record
/// is written only where it changes.
const CASES: [(Call, &str, Can); 20] = [
    // It stays in Handshake; in Waiting it changes the state.
    (SessionStep, "session, Security Handshake accepted", Both),
    // It stays in PinWait.
    (SessionStep, "session, PIN Challenge accepted", Leave),
    // Each changes the state.
    (SessionStep, "session, another event accepted", Write),
    // It closes, and but for its state it is left as lent.
    (SessionStep, "session, open, refused with 14", Write),
    // It is closed already.
    (SessionStep, "session, state above 5, refused with 14", Leave),
    (SessionStep, "session, refused otherwise", Leave),
    // The same with a message.
    (SessionMessage, "session, Security Handshake accepted", Both),
    (SessionMessage, "session, PIN Challenge accepted", Leave),
    (SessionMessage, "session, another event accepted", Write),
    (SessionMessage, "session, open, refused with 14", Write),
    (SessionMessage, "session, state above 5, refused with 14", Leave),
    (SessionMessage, "session, refused otherwise", Leave),
    // The packet's sequence number is newer, or there was none.
    (CursorPosition, "pointer, position accepted", Write),
    (CursorPosition, "pointer, refused", Leave),
    // A start that isn't newer doesn't move the pointer; a continuation never does.
    (CursorStore, "pointer, start accepted", Both),
    (CursorStore, "pointer, continuation accepted", Leave),
    (CursorStore, "pointer, refused", Leave),
    // A fragment that opens a picture changes its record, and so does the first start.
    (CursorStore, "picture, start accepted", Both),
    (CursorStore, "picture, continuation accepted", Both),
    (CursorStore, "picture, refused", Leave),
];

/// For each case, how often the record was left alone and how often written.
#[derive(Default)]
pub struct Forms {
    counts: [(u64, u64); CASES.len()],
}

impl Forms {
    /// Counts a record, if it was lent in an unusual form.
    pub fn count<const N: usize>(&mut self, call: Call, case: &str, left: &Left<N>) {
        if !left.unusual {
            return;
        }
        let index = CASES.iter().position(|&(of, name, _)| (of, name) == (call, case));
        let (alone, written) = &mut self.counts[index.expect("a case of the table")];
        *if left.alone { alone } else { written } += 1;
    }

    /// What is wrong: what a call can do and never did, and what it can't do and did.
    pub fn faults(&self) -> Vec<String> {
        let mut faults = Vec::new();
        for (&(call, case, can), &(alone, written)) in CASES.iter().zip(&self.counts) {
            let name = call.name();
            for (count, possible, what) in
                [(alone, can != Write, "left alone"), (written, can != Leave, "written")]
            {
                match (possible, count) {
                    (true, 0) => faults.push(format!("{name}: never {what}: {case}")),
                    (false, 1..) => faults.push(format!("{name}: can't be {what}: {case}")),
                    _ => {}
                }
            }
        }
        faults
    }
}

/// The table: a line a case.
impl fmt::Display for Forms {
    fn fmt(&self, f: &mut fmt::Formatter<'_>) -> fmt::Result {
        writeln!(f, "{:66} {:>7} {:>7}", "record lent in an unusual form", "left", "written")?;
        for (&(call, case, can), &(alone, written)) in CASES.iter().zip(&self.counts) {
            write!(f, "{:24} {case:41}", call.name())?;
            for (count, possible) in [(alone, can != Write), (written, can != Leave)] {
                if count == 0 && !possible {
                    write!(f, " {:>7}", ".")?;
                } else {
                    write!(f, " {count:>7}")?;
                }
            }
            writeln!(f)?;
        }
        Ok(())
    }
}
