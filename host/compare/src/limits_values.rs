//! The cursor limits value: read and written.

use ashlarsilk::{sys, Limits, Supported};
use reference::limits;

use crate::layout::{self, LIMITS};
use crate::random::Random;
use crate::tally::{hex, outcome, wrapped, Call, Tally};

fn check_read(tally: &mut Tally, random: &mut Random, text: &[u8]) {
    let call = Call::LimitsRead;
    let input = || format!("{:?}", String::from_utf8_lossy(text));
    let expected = limits::read(text);
    let (number, place) = outcome(&expected);
    tally.count(call, number);

    let mut record: [u8; LIMITS + 2] = random.array();
    let mut left = record;
    if let Ok(limits) = &expected {
        left[..LIMITS].copy_from_slice(&layout::limits(limits));
    }
    let answer = sys::limits_read(text, &mut record);
    tally.expect(call, "answer", (answer.status, answer.place), (number, place), input);
    tally.expect(call, "record", record, left, input);

    let read = Limits::read(text);
    tally.expect(call, "wrapped answer", wrapped(&read), (number, place), input);
    if let (Ok(read), Ok(limits)) = (&read, &expected) {
        tally.expect(call, "wrapped record", *read.as_bytes(), layout::limits(limits), input);
        check_said(tally, call, read);
    }
}

/// What the wrapper says of limits, and what the reference's limits of the same bytes say; then the
/// limits that the wrapper makes of this.
fn check_said(tally: &mut Tally, call: Call, record: &Limits) {
    let limits = layout::limits_in(record.as_bytes());
    let expected = match limits {
        limits::Limits::NotSupported => None,
        limits::Limits::Supported { xor, width, height, port } => {
            Some(Supported { xor, width, height, port })
        }
    };
    let input = || hex(record.as_bytes());
    tally.expect(call, "what the limits say", record.supported(), expected, input);

    let made = expected.map_or(Limits::not_supported(), Limits::new);
    tally.expect(call, "made record", *made.as_bytes(), layout::limits(&limits), input);
    tally.expect(call, "made limits", made, *record, input);
}

fn check_write(tally: &mut Tally, record: &[u8; LIMITS], before: &[u8]) {
    let call = Call::LimitsWrite;
    let input = || format!("record {} to {} bytes", hex(record), before.len());
    let mut out = before.to_vec();
    let expected = limits::write(layout::limits_in(record), &mut out);
    let (number, _) = outcome(&expected);
    let size = expected.unwrap_or(0);
    tally.count(call, number);

    let mut lent = [0xA5; LIMITS + 2];
    lent[..LIMITS].copy_from_slice(record);
    let mut library = before.to_vec();
    let written = sys::limits_write(&lent, &mut library);
    tally.expect(call, "answer", (written.status, written.size), (number, size), input);
    tally.expect(call, "output", &library, &out, input);
    if number != 0 {
        tally.expect(call, "output after a refusal", &library[..], before, input);
    }

    let mut through = before.to_vec();
    let wrapper = Limits::from_bytes(*record);
    let answer = wrapper.write(&mut through);
    tally.expect(call, "wrapped answer", wrapped(&answer), (number, 0), input);
    tally.expect(call, "wrapped size", answer.unwrap_or(0), size, input);
    tally.expect(call, "wrapped output", &through, &out, input);
    check_said(tally, call, &wrapper);
}

/// The text with each letter small or capital at random.
fn any_case(random: &mut Random, text: &str) -> Vec<u8> {
    let changed = |mut byte: u8| {
        if random.flag() {
            byte.make_ascii_uppercase();
        } else {
            byte.make_ascii_lowercase();
        }
        byte
    };
    text.bytes().map(changed).collect()
}

pub fn run(tally: &mut Tally, random: &mut Random) {
    words(tally, random);
    every_number(tally, random);
    near_the_grammar(tally, random);
    written(tally, random);
    short(tally, random);
}

/// The grammar's words in each letter case, truncated at every length, with bytes after them, with
/// each byte damaged in every way.
fn words(tally: &mut Tally, random: &mut Random) {
    let texts =
        ["none", "full", "none 0100 0100 C351", "full 0100 abCD ffff", "full 9AFG 0000 0000"];
    for text in texts {
        for _ in 0..20 {
            let mut text = any_case(random, text);
            for length in 0..=text.len() {
                check_read(tally, random, &text[..length]);
            }
            for place in 0..text.len() {
                let kept = text[place];
                for byte in 0..=255 {
                    text[place] = byte;
                    check_read(tally, random, &text);
                }
                text[place] = kept;
            }
            for byte in 0..=255 {
                text.push(byte);
                check_read(tally, random, &text);
                text.pop();
                text.insert(0, byte);
                check_read(tally, random, &text);
                text.remove(0);
            }
        }
    }
    for text in ["full 0x0200 0x0200 50001", "none  0100 0100 C35", "full\t0100 0100 C351"] {
        check_read(tally, random, text.as_bytes());
    }
}

/// Every number in each of the three places.
fn every_number(tally: &mut Tally, random: &mut Random) {
    for number in 0..=u16::MAX {
        let others: [u16; 2] = [random.number() as u16, random.number() as u16];
        for text in [
            format!("full {number:04X} {:04x} {:04X}", others[0], others[1]),
            format!("none {:04x} {number:04x} {:04X}", others[0], others[1]),
            format!("full {:04x} {:04X} {number:04x}", others[0], others[1]),
        ] {
            check_read(tally, random, text.as_bytes());
        }
    }
}

/// Texts of the grammar's own characters, with any number of faults.
fn near_the_grammar(tally: &mut Tally, random: &mut Random) {
    for _ in 0..100_000 {
        let word = random.pick(&["none", "full", "nonf", "fullnone", "", "NONE", "Full"]);
        let mut text = any_case(random, word);
        for _ in 0..random.pick(&[0, 1, 2, 3, 3, 3, 3, 3, 4]) {
            text.extend(random.pick(&["", " ", " ", " ", " ", " ", " ", "  "]).bytes());
            for _ in 0..random.pick(&[3, 4, 4, 4, 4, 4, 4, 5]) {
                text.push(random.pick(b"0123456789abcdefABCDEF"));
            }
        }
        if random.once_in(5) && !text.is_empty() {
            let place = random.below(text.len());
            text[place] = random.byte();
        }
        check_read(tally, random, &text);
    }
    for _ in 0..50_000 {
        let length = random.below(24);
        let text = random.bytes(length);
        check_read(tally, random, &text);
    }
}

/// Any records, to outputs of every length around the needed one; what is written reads back.
fn written(tally: &mut Tally, random: &mut Random) {
    for count in 0..80_000 {
        let mut record: [u8; LIMITS] = random.array();
        record[0] = random.pick(&[0, 1, 1, 1, 2, 255]);
        record[1] = random.pick(&[0, 1, 2, 255]);
        let room = if count < 10_000 { count % 30 } else { 19 + random.below(3) };
        let before = random.bytes(room);
        check_write(tally, &record, &before);

        let mut out = [0; 19];
        let written = sys::limits_write(&record, &mut out);
        check_read(tally, random, &out[..written.size]);
        let mut again = [0; LIMITS];
        sys::limits_read(&out[..written.size], &mut again);
        let same = layout::limits_in(&again) == layout::limits_in(&record);
        tally.expect(Call::LimitsWrite, "reads back", same, true, || hex(&record));
    }
}

/// Records shorter than the layout: 10 before anything else, and nothing is changed.
fn short(tally: &mut Tally, random: &mut Random) {
    for length in 0..LIMITS {
        for text in [&b"none"[..], b"full 0100 0100 C351", b"", b"full"] {
            let before = random.bytes(length);
            let input = || format!("a record of {length} bytes");

            let call = Call::LimitsRead;
            let mut record = before.clone();
            let answer = sys::limits_read(text, &mut record);
            tally.count_short(call);
            tally.expect(call, "short", (answer.status, answer.place), (10, 0), input);
            tally.expect(call, "short record", &record, &before, input);

            let call = Call::LimitsWrite;
            let mut out = [0xA5; 24];
            let written = sys::limits_write(&before, &mut out);
            tally.count_short(call);
            tally.expect(call, "short", (written.status, written.size), (10, 0), input);
            tally.expect(call, "short: output", out, [0xA5; 24], input);
        }
    }
}
