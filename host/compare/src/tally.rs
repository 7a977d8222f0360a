//! What was compared: how often each call gave each number, and where the library differs from
//! the reference.

use std::fmt::{self, Debug, Write};

use ashlarsilk::sys;
use reference::Refused;

use crate::forms::Forms;
use crate::pairs::Pairs;

/// The exported calls.
#[derive(Clone, Copy, Debug, PartialEq, Eq)]
pub enum Call {
    MessageRead,
    MessageWrite,
    MessageRtspPort,
    MessageSecurityOptions,
    MessageSourceId,
    SessionFresh,
    SessionStep,
    SessionMessage,
    LimitsRead,
    LimitsWrite,
    PointerFresh,
    PictureFresh,
    CursorPosition,
    CursorStore,
    CursorComplete,
}

/// The numbers that a call can give, and the sentence of paper 01 that says so. Besides, each call
/// refuses a record shorter than its layout with 10; that is counted by itself.
struct Rule {
    call: Call,
    name: &'static str,
    numbers: &'static [u8],
    /// Paper 01's words.
    paper: &'static str,
}

const RULES: [Rule; 15] = [
    Rule {
        call: Call::MessageRead,
        name: "message_read",
        numbers: &[0, 1, 2, 3, 4, 5, 6, 7, 8],
        paper: "Order for a message: fewer than 4 bytes 1; Size below 4, 2; fewer bytes than Size \
                1; more 2; then 3, 4; then TLVs left to right, each 5, 8 (unknown or foreign), 6, \
                7; last 8 (missing).",
    },
    Rule {
        call: Call::MessageWrite,
        name: "message_write",
        numbers: &[0, 10, 18],
        paper: "Any writer: 18, then 10.",
    },
    Rule {
        call: Call::MessageRtspPort,
        name: "message_rtsp_port",
        numbers: &[0],
        paper: "A record gives each value as a place and a length in the lent bytes.",
    },
    Rule {
        call: Call::MessageSecurityOptions,
        name: "message_security_options",
        numbers: &[0],
        paper: "A record gives each value as a place and a length in the lent bytes.",
    },
    Rule {
        call: Call::MessageSourceId,
        name: "message_source_id",
        numbers: &[0],
        paper: "A record gives each value as a place and a length in the lent bytes.",
    },
    Rule {
        call: Call::SessionFresh,
        name: "session_fresh",
        numbers: &[0],
        paper: "The host keeps one session record and lends it to be changed in place.",
    },
    Rule {
        call: Call::SessionStep,
        name: "session_step",
        numbers: &[0, 4, 10, 14, 15],
        paper: "Everything else is 14 and goes to Closed. A number that is no event is 4 in any \
                state, tested first. In an open state a message carrying a different one is 15, \
                tested before the table. (A message's Source ID lent with 1 to 15 bytes is 10.)",
    },
    Rule {
        call: Call::SessionMessage,
        name: "session_message",
        numbers: &[0, 1, 2, 3, 4, 5, 6, 7, 8, 14, 15],
        paper: "A later step goes on only when the reader accepted. (The reader's 1 to 8, then \
                the step's 14 and 15; a command is an event, so 4 is the reader's.)",
    },
    Rule {
        call: Call::LimitsRead,
        name: "limits_read",
        numbers: &[0, 16],
        paper: "The whole value must match, else 16.",
    },
    Rule {
        call: Call::LimitsWrite,
        name: "limits_write",
        numbers: &[0, 10],
        paper: "Any writer: 18, then 10. (18 is about records of messages: any limits can be \
                written.)",
    },
    Rule {
        call: Call::PointerFresh,
        name: "pointer_fresh",
        numbers: &[0],
        paper: "fresh states are associated functions",
    },
    Rule {
        call: Call::PictureFresh,
        name: "picture_fresh",
        numbers: &[0],
        paper: "fresh states are associated functions",
    },
    Rule {
        call: Call::CursorPosition,
        name: "cursor_position",
        numbers: &[0, 1, 2, 3, 4, 11],
        paper: "Order: fewer than 15 bytes 1; RTP 3; type 4; PacketMsgSize not 7 for a position, \
                2; too few bytes 1; too many 2; a position packet that isn't newer than the last \
                pointer sequence is 11. The call for positions is lent no picture. (RTP: by 02 §2 \
                the first two bytes.)",
    },
    Rule {
        call: Call::CursorStore,
        name: "cursor_store",
        numbers: &[0, 1, 2, 3, 4, 9, 10, 11, 12, 13, 17],
        paper: "Order: 17 where a picture is lent; fewer than 15 bytes 1; RTP 3; type 4; \
                PacketMsgSize below its header 2; too few bytes 1; too many 2; 9; 10. A fragment \
                of the opened id: other total 12; conflict 13. A fragment of another id opens a \
                picture if newer. Otherwise 11. (RTP: by 02 §2 the first two bytes.)",
    },
    Rule {
        call: Call::CursorComplete,
        name: "cursor_complete",
        numbers: &[0, 17],
        paper: "The completeness question is 17 first; with no picture open its answer is no.",
    },
];

impl Call {
    pub fn name(self) -> &'static str {
        RULES[self as usize].name
    }

    /// The numbers that it can give.
    pub fn numbers(self) -> &'static [u8] {
        RULES[self as usize].numbers
    }

    /// Writes a line of a table: the name, how often each number was given, with a dot where the
    /// call can't give it, and a last count.
    pub fn write_line(
        self,
        f: &mut fmt::Formatter<'_>,
        counts: &[u64; NUMBERS],
        last: u64,
    ) -> fmt::Result {
        write!(f, "{:24}", self.name())?;
        for (number, count) in (0..).zip(counts) {
            if *count == 0 && !self.numbers().contains(&number) {
                write!(f, " {:>7}", ".")?;
            } else {
                write!(f, " {count:>7}")?;
            }
        }
        writeln!(f, " {last:>7}")
    }
}

/// The numbers of paper 01, 0 to 18.
pub const NUMBERS: usize = 19;

/// Writes the first line of a table whose lines are written by [`Call::write_line`].
pub fn write_heading(f: &mut fmt::Formatter<'_>, first: &str, last: &str) -> fmt::Result {
    write!(f, "{first:24}")?;
    for number in 0..NUMBERS {
        write!(f, " {number:>7}")?;
    }
    writeln!(f, " {last:>7}")
}

/// The call for positions: lent the pointer and the packet.
pub type PositionCall = fn(&mut [u8], &[u8]) -> sys::Answer;

/// The call for starts and continuations: lent the pointer, the picture's record, the packet, the
/// picture and its marks.
pub type StoreCall = fn(&mut [u8], &mut [u8], &[u8], &mut [u8], &mut [u8]) -> sys::Answer;

/// The exported calls that take packets. A test puts wrong ones in their place.
#[derive(Clone, Copy)]
pub struct PacketCalls {
    pub position: PositionCall,
    pub store: StoreCall,
}

impl Default for PacketCalls {
    /// The library's.
    fn default() -> Self {
        PacketCalls { position: sys::cursor_position, store: sys::cursor_store }
    }
}

// The rule of a call stands at the call's number.
const _: () = {
    let mut number = 0;
    while number < RULES.len() {
        assert!(RULES[number].call as usize == number);
        number += 1;
    }
};

/// How many differences of each call are described in full.
const DESCRIBED: u64 = 3;

#[derive(Default)]
pub struct Tally {
    /// What is compared of the calls that take packets.
    pub packet_calls: PacketCalls,
    /// For each call, how often it gave each number.
    counts: [[u64; NUMBERS]; RULES.len()],
    /// For each call, how often it refused a short record with 10.
    short: [u64; RULES.len()],
    /// What became of records lent in an unusual form.
    pub forms: Forms,
    /// What became of packets that differ only in timestamp and SSRC.
    pairs: Pairs,
    /// For each call, how often it differs from the reference.
    differences: [u64; RULES.len()],
    described: Vec<String>,
}

impl Tally {
    /// A tally of these calls for packets.
    pub fn of(packet_calls: PacketCalls) -> Self {
        Tally { packet_calls, ..Tally::default() }
    }

    /// Counts an answer.
    pub fn count(&mut self, call: Call, number: u8) {
        self.counts[call as usize][usize::from(number)] += 1;
    }

    /// Counts the refusal of a short record.
    pub fn count_short(&mut self, call: Call) {
        self.short[call as usize] += 1;
    }

    /// Notes a difference where the library's value is not the expected one.
    #[inline]
    pub fn expect<T: PartialEq + Debug>(
        &mut self,
        call: Call,
        what: &str,
        library: T,
        expected: T,
        input: impl FnOnce() -> String,
    ) {
        if library == expected {
            return;
        }
        self.differences[call as usize] += 1;
        if self.differences[call as usize] <= DESCRIBED {
            let name = call.name();
            let mut text = format!("{name}, {what}: {library:?}, expected {expected:?}");
            // A large picture is not shown byte by byte.
            cut(&mut text, 1000);
            let mut input = input();
            cut(&mut input, 1000);
            let _ = write!(text, "\n    for {input}");
            self.described.push(text);
        }
    }

    /// Compares what a call gave and left for a packet, whose answer has this number, and for the
    /// same packet with another timestamp and SSRC.
    pub fn pair<T: PartialEq + Debug>(
        &mut self,
        call: Call,
        number: u8,
        given: T,
        other: T,
        input: impl FnOnce() -> String,
    ) {
        self.pairs.count(call, number, given == other);
        self.expect(call, "with another timestamp and SSRC", other, given, input);
    }

    /// The number of answers compared with the reference's.
    pub fn compared(&self) -> u64 {
        self.counts.iter().flatten().chain(&self.short).sum()
    }

    /// What is wrong: differences, numbers that a call can give and never gave, numbers that it
    /// can't give and gave, and the same of what it does with a record in an unusual form and with
    /// packets that differ only in timestamp and SSRC.
    pub fn faults(&self) -> Vec<String> {
        let mut faults = self.described.clone();
        for (rule, differences) in RULES.iter().zip(self.differences) {
            if differences > 0 {
                faults.push(format!("{}: {differences} differences in all", rule.name));
            }
        }
        for (rule, (counts, short)) in RULES.iter().zip(self.counts.iter().zip(self.short)) {
            let Rule { name, paper, .. } = rule;
            for (number, &count) in (0..).zip(counts) {
                let wrong = match (rule.numbers.contains(&number), count) {
                    (true, 0) => "never answered",
                    (false, 1..) => "can't answer",
                    _ => continue,
                };
                faults.push(format!("{name} {wrong} with {number}; paper 01: {paper}"));
            }
            if short == 0 {
                faults.push(format!("{name} was lent no short record"));
            }
        }
        faults.extend(self.forms.faults());
        faults.extend(self.pairs.faults());
        faults
    }
}

fn cut(text: &mut String, length: usize) {
    if let Some((place, _)) = text.char_indices().nth(length) {
        text.truncate(place);
        text.push_str("...");
    }
}

/// The table: a line a call, a column a number that any call gives. Then that of the forms, and
/// that of the pairs.
impl fmt::Display for Tally {
    fn fmt(&self, f: &mut fmt::Formatter<'_>) -> fmt::Result {
        write_heading(f, "call", "short")?;
        for (rule, (counts, short)) in RULES.iter().zip(self.counts.iter().zip(self.short)) {
            rule.call.write_line(f, counts, short)?;
        }
        self.forms.fmt(f)?;
        self.pairs.fmt(f)
    }
}

/// The number and the place of an answer of the reference, 0 and 0 where it accepts.
pub fn outcome<T>(answer: &Result<T, Refused>) -> (u8, usize) {
    match answer {
        Ok(_) => (0, 0),
        Err(refused) => (refused.number.number(), refused.place),
    }
}

/// The number and the place of an answer of the wrapper.
pub fn wrapped<T>(answer: &Result<T, ashlarsilk::Refused>) -> (u8, usize) {
    match answer {
        Ok(_) => (0, 0),
        Err(refused) => (refused.refusal.number(), refused.place),
    }
}

/// Bytes in hexadecimal.
pub fn hex(bytes: &[u8]) -> String {
    bytes.iter().fold(String::new(), |mut text, byte| {
        let _ = write!(text, "{byte:02X}");
        text
    })
}
