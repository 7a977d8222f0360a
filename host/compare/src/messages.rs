//! Connection messages: read, written, and asked for their values.

use ashlarsilk::{sys, Message};
use reference::message::{self, Record, Tlv};

use crate::layout::{self, MESSAGE};
use crate::making::{message, set_size, tlv};
use crate::random::Random;
use crate::tally::{hex, outcome, wrapped, Call, Tally};

/// The TLV types of each command 1 to 6, what may be absent too (paper 01, "Connection message").
const OWN: [&[u8]; 6] = [&[0, 2, 3], &[0, 3], &[3, 4], &[0, 3, 5], &[3, 6], &[3, 6, 7]];

/// Bytes after a record's layout, which no call may change.
const AFTER: [u8; 2] = [0xA5, 0x5A];

/// Compares the reading of these bytes; where they are accepted, also what is asked of the record
/// and what is written for it.
pub fn check(tally: &mut Tally, random: &mut Random, bytes: &[u8]) {
    let expected = message::read(bytes);
    let (number, place) = outcome(&expected);
    let call = Call::MessageRead;
    tally.count(call, number);

    let mut lent: [u8; MESSAGE + 2] = random.array();
    lent[MESSAGE..].copy_from_slice(&AFTER);
    let mut left = lent;
    if let Ok(record) = &expected {
        left[..MESSAGE].copy_from_slice(&layout::message(record));
    }
    let answer = sys::message_read(bytes, &mut lent);
    tally.expect(call, "answer", (answer.status, answer.place), (number, place), || hex(bytes));
    tally.expect(call, "record", lent, left, || hex(bytes));

    let read = Message::read(bytes);
    tally.expect(call, "wrapped answer", wrapped(&read), (number, place), || hex(bytes));
    if let (Ok(read), Ok(record)) = (&read, &expected) {
        tally.expect(call, "wrapped record", *read.as_bytes(), layout::message(record), || {
            hex(bytes)
        });
        check_values(tally, bytes, read, record);
        check_written_back(tally, random, bytes, record);
    }
}

/// Compares what is asked of a record that the reader gave. Only such records are compared: on
/// others the library answers 0 for what is missing and counts bytes past the end as 0, where the
/// reference answers that there is none, and the papers don't say.
fn check_values(tally: &mut Tally, bytes: &[u8], read: &Message, record: &Record) {
    let lent = read.as_bytes();
    let values = ashlarsilk::Tlv::ALL.map(|tlv| read.value(bytes, tlv));
    let expected = Tlv::ALL.map(|tlv| record.value(bytes, tlv));
    tally.expect(Call::MessageRead, "values", values, expected, || hex(bytes));

    let call = Call::MessageRtspPort;
    let port = record.rtsp_port(bytes);
    let answer = sys::message_rtsp_port(bytes, lent);
    tally.count(call, answer.status.min(18));
    tally.expect(call, "answer", (answer.status, answer.value), (0, port.unwrap_or(0)), || {
        hex(bytes)
    });
    tally.expect(call, "wrapped answer", read.rtsp_port(bytes), port, || hex(bytes));

    let call = Call::MessageSecurityOptions;
    let options = record.option_byte(bytes);
    let answer = sys::message_security_options(bytes, lent);
    tally.count(call, answer.status.min(18));
    let value = u16::from(options.unwrap_or(0));
    tally.expect(call, "answer", (answer.status, answer.value), (0, value), || hex(bytes));
    tally.expect(call, "wrapped answer", read.security_options(bytes), options, || hex(bytes));

    let call = Call::MessageSourceId;
    let source = record.source_id(bytes);
    let mut id = [0xA5; 18];
    let mut left = id;
    if let Some(source) = source {
        left[..16].copy_from_slice(&source);
    }
    let answer = sys::message_source_id(bytes, lent, &mut id);
    tally.count(call, answer.status.min(18));
    let yes = u8::from(source.is_some());
    tally.expect(call, "answer", (answer.status, answer.yes), (0, yes), || hex(bytes));
    tally.expect(call, "id", id, left, || hex(bytes));
    let wrapped = read.source_id(bytes).map(|id| id.0);
    tally.expect(call, "wrapped answer", wrapped, source, || hex(bytes));
}

/// Compares the writing of an accepted message's record: it gives the message's bytes back exactly
/// if its TLVs were in rising order (paper 01, "Connection message").
fn check_written_back(tally: &mut Tally, random: &mut Random, bytes: &[u8], record: &Record) {
    let room = bytes.len() + random.below(3);
    let out = check_write(tally, bytes, &layout::message(record), random.bytes(room));
    let rising = record.values.iter().flatten().map(|span| span.place).is_sorted();
    let same = out[..bytes.len()] == *bytes;
    tally.expect(Call::MessageWrite, "the same bytes", same, rising, || hex(bytes));
}

/// Compares the writing of a record to an output, and answers with the output afterwards.
fn check_write(
    tally: &mut Tally,
    bytes: &[u8],
    record: &[u8; MESSAGE],
    mut out: Vec<u8>,
) -> Vec<u8> {
    let call = Call::MessageWrite;
    let room = out.len();
    let input = || format!("record {} of {} with room {room}", hex(record), hex(bytes));
    let (mut library, mut through) = (out.clone(), out.clone());
    let before = out.clone();
    let expected = message::write(bytes, &layout::message_in(record), &mut out);
    let (number, _) = outcome(&expected);
    tally.count(call, number);

    let mut lent = [0xA5; MESSAGE + 2];
    lent[..MESSAGE].copy_from_slice(record);
    let written = sys::message_write(bytes, &lent, &mut library);
    let size = expected.unwrap_or(0);
    tally.expect(call, "answer", (written.status, written.size), (number, size), input);
    tally.expect(call, "output", &library, &out, input);
    if number != 0 {
        tally.expect(call, "output after a refusal", &library, &before, input);
    }

    let answer = Message::from_bytes(*record).write(bytes, &mut through);
    tally.expect(call, "wrapped answer", wrapped(&answer), (number, 0), input);
    tally.expect(call, "wrapped size", answer.unwrap_or(0), size, input);
    tally.expect(call, "wrapped output", &through, &out, input);
    out
}

/// A right length for a value of this type, short ones more often.
fn right_length(random: &mut Random, kind: u8) -> usize {
    match kind {
        0 => 2 * random.pick(&[1, 1, 2, 3, 5, 259, 260]),
        2 => 2,
        3 => 16,
        7 => 1,
        _ => random.pick(&[1, 1, 2, 3, 4, 32, 300]),
    }
}

fn any_tlv(random: &mut Random, kind: u8) -> Vec<u8> {
    let mut length = right_length(random, kind);
    if random.once_in(12) {
        length = random.pick(&[0, 1, 2, 3, 15, 16, 17, 32, 521, 522]);
    }
    tlv(kind, &random.bytes(length))
}

/// A message of this command with right TLVs in any order, what may be absent there or not.
fn right_message(random: &mut Random, command: u8) -> Vec<u8> {
    let mut kinds = OWN[usize::from(command) - 1].to_vec();
    let may_go = match command {
        1 => Some(0),
        3 => Some(3),
        _ => None,
    };
    if random.flag() {
        kinds.retain(|&kind| Some(kind) != may_go);
    }
    random.shuffle(&mut kinds);
    let tlvs: Vec<Vec<u8>> = kinds
        .into_iter()
        .map(|kind| {
            let length = right_length(random, kind);
            tlv(kind, &random.bytes(length))
        })
        .collect();
    message(command, &tlvs)
}

/// A message with any number of faults: TLVs missing, doubled, foreign, unknown, of wrong length, a
/// wrong Size, version or byte, bytes too few or too many.
pub fn any_message(random: &mut Random) -> Vec<u8> {
    let mut command = 1 + random.below(6) as u8;
    let mut kinds = OWN[usize::from(command) - 1].to_vec();
    random.shuffle(&mut kinds);
    if random.once_in(7) {
        kinds.pop();
    }
    if random.once_in(7) {
        let place = random.below(kinds.len() + 1);
        kinds.insert(place, random.pick(&[0, 1, 2, 3, 4, 5, 6, 7, 8, 255]));
    }
    if random.once_in(40) {
        command = random.byte();
    }
    let tlvs: Vec<Vec<u8>> = kinds.into_iter().map(|kind| any_tlv(random, kind)).collect();
    let mut bytes = message(command, &tlvs);
    if random.once_in(10) {
        let place = random.below(bytes.len());
        bytes[place] = random.byte();
    }
    if random.once_in(20) {
        bytes[2] = random.byte();
    }
    match random.below(24) {
        0 => bytes.truncate(random.below(bytes.len() + 1)),
        1 => bytes.extend(random.array::<2>()),
        2 => {
            bytes.truncate(random.below(bytes.len() + 1));
            set_size(&mut bytes);
        }
        3 => {
            let more = random.below(4);
            bytes.extend(random.bytes(more));
            set_size(&mut bytes);
        }
        4 if bytes.len() > 1 => bytes[..2].copy_from_slice(&random.array::<2>()),
        5 if bytes.len() > 1 => bytes[..2].copy_from_slice(&(random.below(6) as u16).to_be_bytes()),
        _ => {}
    }
    bytes
}

/// Messages without a fault, eight of each command.
pub fn right_messages(random: &mut Random) -> Vec<Vec<u8>> {
    (0..48).map(|count| right_message(random, 1 + count % 6)).collect()
}

pub fn run(tally: &mut Tally, random: &mut Random) {
    damaged(tally, random);
    kinds_and_lengths(tally, random);
    sizes(tally, random);
    for _ in 0..300_000 {
        let bytes = any_message(random);
        check(tally, random, &bytes);
    }
    for _ in 0..100_000 {
        let length = random.below(40);
        let bytes = random.bytes(length);
        check(tally, random, &bytes);
    }
    written(tally, random);
    largest_written(tally, random);
    values_of_any_record(tally, random);
    short(tally, random);
}

/// Messages without a fault, truncated at every length, with bytes after them, and with each byte
/// of their heads and of short ones damaged in every way.
fn damaged(tally: &mut Tally, random: &mut Random) {
    for bytes in right_messages(random) {
        check(tally, random, &bytes);
        for length in 0..bytes.len() {
            check(tally, random, &bytes[..length]);
            let mut cut = bytes[..length].to_vec();
            set_size(&mut cut);
            check(tally, random, &cut);
        }
        let mut longer = bytes.clone();
        for _ in 0..3 {
            longer.push(random.byte());
            check(tally, random, &longer);
            let mut sized = longer.clone();
            set_size(&mut sized);
            check(tally, random, &sized);
        }
        let mut changed = bytes.clone();
        for place in 0..bytes.len().min(80) {
            for byte in 0..=255 {
                changed[place] = byte;
                check(tally, random, &changed);
            }
            changed[place] = bytes[place];
        }
    }
}

/// A message of each command with one TLV of each type; and its own types with each length, alone
/// and after the command's other TLVs.
fn kinds_and_lengths(tally: &mut Tally, random: &mut Random) {
    for command in 0..=255 {
        for kind in 0..=255 {
            let length = right_length(random, kind).min(32);
            let bytes = message(command, &[tlv(kind, &random.bytes(length))]);
            check(tally, random, &bytes);
        }
    }
    for (command, own) in (1..).zip(OWN) {
        for &kind in own {
            let others: Vec<u8> = own.iter().copied().filter(|&other| other != kind).collect();
            for length in 0..=540 {
                let mut tlvs: Vec<Vec<u8>> = Vec::new();
                for &other in &others {
                    let right = right_length(random, other);
                    tlvs.push(tlv(other, &random.bytes(right)));
                }
                tlvs.push(tlv(kind, &random.bytes(length)));
                check(tally, random, &message(command, &tlvs));
                check(tally, random, &message(command, &tlvs[tlvs.len() - 1..]));
            }
        }
    }
}

/// Every Size over the same bytes; and messages up to the largest.
fn sizes(tally: &mut Tally, random: &mut Random) {
    let mut bytes = message(1, &[tlv(0, b"A\0"), tlv(2, &[0x1C, 0x44]), tlv(3, &[7; 16])]);
    for size in 0..=u16::MAX {
        bytes[..2].copy_from_slice(&size.to_be_bytes());
        check(tally, random, &bytes);
    }
    for length in [255, 256, 257, 32_767, 32_768, 65_500, 65_527, 65_528] {
        let token = random.bytes(length);
        check(tally, random, &message(3, &[tlv(4, &token)]));
        // Size wraps here where the message is longer than any Size can say.
        check(tally, random, &message(3, &[tlv(4, &token), tlv(3, &[7; 16])]));
    }
}

/// A field: any flag for yes, a place and a length in and out of range.
fn any_field(random: &mut Random, kind: u8, lent: usize) -> [u8; 9] {
    let length = match random.below(12) {
        0 => random.pick(&[0, 1, 2, 3, 15, 16, 17, 520, 521, 522, 65_535, u32::MAX]),
        _ => right_length(random, kind) as u32,
    };
    let room = lent.saturating_sub(length as usize);
    let place = match random.below(12) {
        0 => random.pick(&[u32::MAX, u32::MAX - 1, u32::MAX - 15, 1 << 31, 65_536]),
        1 => lent as u32 + random.below(3) as u32,
        2 => room as u32 + 1,
        3 => room as u32,
        _ => random.below(room + 1) as u32,
    };
    let mut field = [0; 9];
    field[0] = random.pick(&[1, 1, 1, 2, 255]);
    field[1..5].copy_from_slice(&place.to_le_bytes());
    field[5..].copy_from_slice(&length.to_le_bytes());
    field
}

/// A record of any command, mostly with its own TLVs, any bytes where a value is absent.
fn any_record(random: &mut Random, lent: usize) -> [u8; MESSAGE] {
    let mut record: [u8; MESSAGE] = random.array();
    let command = if random.once_in(12) { random.byte() } else { 1 + random.below(6) as u8 };
    record[0] = command;
    let own = OWN.get(usize::from(command).wrapping_sub(1)).copied().unwrap_or(&[]);
    for (tlv, field) in Tlv::ALL.into_iter().zip(record[1..].chunks_exact_mut(9)) {
        let kind = tlv.type_byte();
        if own.contains(&kind) != random.once_in(30) {
            field.copy_from_slice(&any_field(random, kind, lent));
        } else {
            field[0] = 0;
        }
    }
    record
}

/// Any records, with outputs of every length around the needed one.
fn written(tally: &mut Tally, random: &mut Random) {
    for _ in 0..60_000 {
        let lent = random.pick(&[0, 1, 16, 40, 60, 600]);
        let bytes = random.bytes(lent);
        let record = any_record(random, lent);
        // With much room the answer tells what is needed; 64 where the record can't be written.
        let mut out = vec![0; 2000];
        let needed = message::write(&bytes, &layout::message_in(&record), &mut out).unwrap_or(64);
        for room in needed.saturating_sub(2)..needed + 3 {
            check_write(tally, &bytes, &record, random.bytes(room));
        }
        let room = random.below(needed + 1);
        check_write(tally, &bytes, &record, random.bytes(room));
    }
    for bytes in right_messages(random) {
        let record = layout::message(&message::read(&bytes).expect("a right message"));
        for room in 0..bytes.len() + 4 {
            check_write(tally, &bytes, &record, random.bytes(room));
        }
    }
    // Bytes that were read from, but shorter or others.
    for bytes in right_messages(random) {
        let record = layout::message(&message::read(&bytes).expect("a right message"));
        for length in 0..bytes.len() {
            check_write(tally, &bytes[..length], &record, random.bytes(bytes.len()));
        }
    }
}

/// Sizes around 65,535, by one long value or by two.
fn largest_written(tally: &mut Tally, random: &mut Random) {
    let bytes = random.bytes(70_000);
    let field =
        |place: u32, length: u32| [&[1][..], &place.to_le_bytes(), &length.to_le_bytes()].concat();
    for length in 65_500..65_540 {
        for with_id in [false, true] {
            let mut record = [0; MESSAGE];
            record[0] = 3;
            record[28..37].copy_from_slice(&field(random.below(4000) as u32, length));
            if with_id {
                record[19..28].copy_from_slice(&field(69_984, 16));
            }
            for room in [0, 65_534, 65_535, 65_536, 65_600] {
                check_write(tally, &bytes, &record, random.bytes(room));
            }
        }
        let mut record = [0; MESSAGE];
        record[0] = 4;
        record[1..10].copy_from_slice(&field(random.below(60_000) as u32, 2));
        record[19..28].copy_from_slice(&field(random.below(60_000) as u32, 16));
        record[37..46].copy_from_slice(&field(random.below(4000) as u32, length));
        check_write(tally, &bytes, &record, random.bytes(65_536));
    }
}

/// The values of any records: the papers don't say what they are, but the calls answer, and
/// without a Source ID no byte of `id` is changed.
fn values_of_any_record(tally: &mut Tally, random: &mut Random) {
    for _ in 0..50_000 {
        let lent = random.below(40);
        let bytes = random.bytes(lent);
        let record = any_record(random, lent);
        let input = || format!("record {} of {}", hex(&record), hex(&bytes));
        let port = sys::message_rtsp_port(&bytes, &record);
        tally.expect(Call::MessageRtspPort, "status", port.status, 0, input);
        let options = sys::message_security_options(&bytes, &record);
        tally.expect(Call::MessageSecurityOptions, "status", options.status, 0, input);
        let mut id = [0xA5; 18];
        let answer = sys::message_source_id(&bytes, &record, &mut id);
        let changed = if answer.yes == 0 { &id[..] } else { &id[16..] };
        let unchanged = changed.iter().all(|&byte| byte == 0xA5);
        tally.expect(Call::MessageSourceId, "status", answer.status, 0, input);
        tally.expect(Call::MessageSourceId, "bytes after the id", unchanged, true, input);
    }
}

/// Records shorter than the layout, and an `id` shorter than a Source ID: 10 before anything else,
/// and nothing is changed.
fn short(tally: &mut Tally, random: &mut Random) {
    for _ in 0..20 {
        let right = right_message(random, 1);
        for bytes in [right, any_message(random), Vec::new()] {
            for length in 0..MESSAGE {
                let before = random.bytes(length);
                let input = || format!("a record of {length} bytes with {}", hex(&bytes));

                let call = Call::MessageRead;
                let mut record = before.clone();
                let answer = sys::message_read(&bytes, &mut record);
                tally.count_short(call);
                tally.expect(call, "short", (answer.status, answer.place), (10, 0), input);
                tally.expect(call, "short record", &record, &before, input);

                let call = Call::MessageWrite;
                let mut out = [0xA5; 80];
                let written = sys::message_write(&bytes, &record, &mut out);
                tally.count_short(call);
                tally.expect(call, "short", (written.status, written.size), (10, 0), input);
                tally.expect(call, "short: output", out, [0xA5; 80], input);

                let call = Call::MessageRtspPort;
                let port = sys::message_rtsp_port(&bytes, &record);
                tally.count_short(call);
                tally.expect(call, "short", (port.status, port.value), (10, 0), input);

                let call = Call::MessageSecurityOptions;
                let options = sys::message_security_options(&bytes, &record);
                tally.count_short(call);
                tally.expect(call, "short", (options.status, options.value), (10, 0), input);

                let call = Call::MessageSourceId;
                let mut id = [0xA5; 16];
                let answer = sys::message_source_id(&bytes, &record, &mut id);
                tally.count_short(call);
                tally.expect(call, "short", (answer.status, answer.yes), (10, 0), input);
                tally.expect(call, "short: id", id, [0xA5; 16], input);
            }
        }
    }
    let bytes = right_message(random, 2);
    let record = layout::message(&message::read(&bytes).expect("a right message"));
    for length in 0..16 {
        let call = Call::MessageSourceId;
        let mut id = vec![0xA5; length];
        let answer = sys::message_source_id(&bytes, &record, &mut id);
        let input = || format!("an id of {length} bytes");
        tally.count_short(call);
        tally.expect(call, "short", (answer.status, answer.yes), (10, 0), input);
        tally.expect(call, "short id", &id, &vec![0xA5; length], input);
    }
}
