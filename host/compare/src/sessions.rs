//! The sink's session: steps with events and with messages.

use ashlarsilk::{sys, Event, Session, SourceId};
use reference::message::{PIN_CHALLENGE, SECURITY_HANDSHAKE, STOP_PROJECTION};
use reference::session::{self, Answer, State};
use reference::Refusal;

use crate::layout::{self, Left, SESSION};
use crate::making::{message, tlv};
use crate::messages::{any_message, right_messages};
use crate::random::Random;
use crate::tally::{hex, wrapped, Call, Tally};

const AFTER: [u8; 2] = [0xA5, 0x5A];

/// The record as a step must leave it. An accepted step writes it only where it changes. A refusal
/// changes no byte (demand 1), but for 14 in an open session, which changes the state's name only.
fn left_by(before: &[u8; SESSION], answer: &Answer) -> Left<SESSION> {
    let accepted = answer.number == Refusal::Accepted;
    let mut left = layout::session_left(before, accepted.then_some(&answer.session));
    if answer.number == Refusal::Unexpected && before[0] < 5 {
        left.bytes[0] = 5;
        left.alone = false;
    }
    left
}

/// The case that this is, should the record be lent in an unusual form.
fn case(before: &[u8; SESSION], event: u8, number: Refusal) -> &'static str {
    match (number, event) {
        (Refusal::Accepted, SECURITY_HANDSHAKE) => "session, Security Handshake accepted",
        (Refusal::Accepted, PIN_CHALLENGE) => "session, PIN Challenge accepted",
        (Refusal::Accepted, _) => "session, another event accepted",
        (Refusal::Unexpected, _) if before[0] < 5 => "session, open, refused with 14",
        (Refusal::Unexpected, _) if before[0] > 5 => "session, state above 5, refused with 14",
        _ => "session, refused otherwise",
    }
}

/// The record with bytes after it, which no call may change.
fn lent(record: &[u8; SESSION]) -> [u8; SESSION + 2] {
    let mut lent = [0; SESSION + 2];
    lent[..SESSION].copy_from_slice(record);
    lent[SESSION..].copy_from_slice(&AFTER);
    lent
}

/// Compares a step of this event through `sys`, and answers with the record afterwards.
fn compare(
    tally: &mut Tally,
    call: Call,
    before: &[u8; SESSION],
    event: u8,
    expected: &Answer,
    run: impl Fn(&mut [u8]) -> sys::Step,
    input: impl Fn() -> String,
) -> [u8; SESSION] {
    let number = expected.number.number();
    let left = left_by(before, expected);
    tally.count(call, number);
    tally.forms.count(call, case(before, event, expected.number), &left);
    // The reference says the same of the session.
    tally.expect(call, "session", layout::session_in(&left.bytes), expected.session, &input);

    let mut record = lent(before);
    let step = run(&mut record);
    let check = u8::from(expected.check_pin);
    let answer = (step.status, step.check, step.place);
    tally.expect(call, "answer", answer, (number, check, expected.place), &input);
    tally.expect(call, "record", record, lent(&left.bytes), &input);
    left.bytes
}

/// Compares the same step through the wrapper.
fn compare_wrapped(
    tally: &mut Tally,
    call: Call,
    before: &[u8; SESSION],
    expected: &Answer,
    run: impl Fn(&mut Session) -> Result<ashlarsilk::Accepted, ashlarsilk::Refused>,
    input: impl Fn() -> String,
) {
    let mut session = Session::from_bytes(*before);
    let answer = run(&mut session);
    let outcome = (expected.number.number(), expected.place);
    tally.expect(call, "wrapped answer", wrapped(&answer), outcome, &input);
    let check_pin = answer.is_ok_and(|accepted| accepted.check_pin);
    tally.expect(call, "wrapped check", check_pin, expected.check_pin, &input);
    let left = left_by(before, expected).bytes;
    tally.expect(call, "wrapped record", *session.as_bytes(), left, &input);

    let said = (session.state() as u8, session.options(), session.source_id().map(|id| id.0));
    let after = expected.session;
    let state = layout::session(&after)[0];
    let expected = (state, after.options, after.id_kept.then_some(after.source_id));
    tally.expect(call, "what the session says", said, expected, &input);
}

/// Compares a step with an event and a Source ID lent as any number of bytes, and answers with the
/// record afterwards.
fn check_lent(
    tally: &mut Tally,
    before: &[u8; SESSION],
    event: u8,
    source: &[u8],
    options: u8,
) -> [u8; SESSION] {
    let expected = session::step_lent(layout::session_in(before), event, source, options);
    compare(
        tally,
        Call::SessionStep,
        before,
        event,
        &expected,
        |record| sys::session_step(record, event, source, options),
        || format!("{} with event {event}, source {source:?}, options {options}", hex(before)),
    )
}

/// Compares a step with an event that carries a Source ID or none, and answers with the record
/// afterwards.
fn check_step(
    tally: &mut Tally,
    before: &[u8; SESSION],
    event: u8,
    source: Option<[u8; 16]>,
    options: u8,
) -> [u8; SESSION] {
    let expected = session::step(layout::session_in(before), event, source, options);
    let id = source.map(SourceId);
    compare_wrapped(
        tally,
        Call::SessionStep,
        before,
        &expected,
        |session| session.step(Event(event), id.as_ref(), options),
        || format!("{} with event {event}, source {source:?}, options {options}", hex(before)),
    );
    let bytes = source.as_ref().map_or(&[][..], |source| source);
    check_lent(tally, before, event, bytes, options)
}

/// Compares a step with a message, and answers with the record afterwards.
fn check_message(tally: &mut Tally, before: &[u8; SESSION], bytes: &[u8]) -> [u8; SESSION] {
    let call = Call::SessionMessage;
    let expected = session::on_message(layout::session_in(before), bytes);
    let input = || format!("{} with {}", hex(before), hex(bytes));
    compare_wrapped(tally, call, before, &expected, |session| session.message(bytes), input);
    let command = bytes.get(3).copied().unwrap_or(0);
    let run = |record: &mut [u8]| sys::session_message(record, bytes);
    compare(tally, call, before, command, &expected, run, input)
}

pub fn run(tally: &mut Tally, random: &mut Random) {
    fresh(tally, random);
    every_state_and_event(tally, random);
    every_option(tally, random);
    walks(tally, random);
    messages(tally, random);
    the_same_session(tally, random);
    sources_of_any_length(tally, random);
    short(tally, random);
}

fn fresh(tally: &mut Tally, random: &mut Random) {
    let call = Call::SessionFresh;
    let wanted = layout::session(&session::Session::fresh());
    for _ in 0..100 {
        let mut record = lent(&random.array());
        let status = sys::session_fresh(&mut record);
        tally.count(call, status.min(18));
        tally.expect(call, "answer", status, 0, String::new);
        tally.expect(call, "record", record, lent(&wanted), String::new);
    }
    tally.expect(call, "wrapped", *Session::fresh().as_bytes(), wanted, String::new);
    for length in 0..SESSION {
        let before = random.bytes(length);
        let mut record = before.clone();
        let status = sys::session_fresh(&mut record);
        tally.count_short(call);
        tally.expect(call, "short", status, 10, || format!("{length} bytes"));
        tally.expect(call, "short record", &record, &before, || format!("{length} bytes"));
    }
}

/// Every state byte with every event, without a Source ID, with the one in the record and with
/// another, where one is kept and where not; any bytes in the rest.
fn every_state_and_event(tally: &mut Tally, random: &mut Random) {
    for state in 0..=255 {
        for event in 0..=255 {
            for kept in [0, 1, 2 + random.byte() % 254] {
                let mut before: [u8; SESSION] = random.array();
                before[0] = state;
                before[2] = kept;
                let same: [u8; 16] = before[3..].try_into().expect("16 bytes");
                let mut other = same;
                other[random.below(16)] ^= 1 << random.below(8);
                for source in [None, Some(same), Some(other)] {
                    check_step(tally, &before, event, source, random.byte());
                }
            }
        }
    }
}

/// Every option byte: brought by a Session Request, and kept when the handshake is done.
fn every_option(tally: &mut Tally, random: &mut Random) {
    for options in 0..=255 {
        for state in 0..6 {
            for event in 1..=10 {
                let mut before: [u8; SESSION] = random.array();
                before[0] = state;
                before[1] = options;
                before[2] = random.below(2) as u8;
                check_step(tally, &before, event, None, random.byte());
                before[1] = random.byte();
                check_step(tally, &before, event, None, options);
            }
        }
    }
}

/// Lists of events from a fresh session on, mostly ones that are expected.
fn walks(tally: &mut Tally, random: &mut Random) {
    for _ in 0..30_000 {
        let mut record = layout::session(&session::Session::fresh());
        for _ in 0..12 {
            let expected: &[u8] = match layout::session_in(&record).state {
                State::Waiting => &[1, 3, 4, 4],
                State::Handshake => &[3, 7, 7],
                State::PinWait => &[5, 8, 8, 9],
                State::ReadyWait => &[1],
                State::Projecting => &[2, 10],
                State::Closed => &[1],
            };
            let event =
                if random.once_in(10) { random.below(12) as u8 } else { random.pick(expected) };
            let source = random.pick(&[None, Some([7; 16]), Some([7; 16]), Some([8; 16])]);
            record = check_step(tally, &record, event, source, random.pick(&[0, 1, 2, 3, 255]));
            random.other_yes(&mut record[2]);
        }
    }
}

/// Any message to a session in any state, and lists of messages.
fn messages(tally: &mut Tally, random: &mut Random) {
    for _ in 0..200_000 {
        let mut before: [u8; SESSION] = random.array();
        before[0] = random.pick(&[0, 0, 1, 2, 3, 4, 5, 6, 255]);
        before[2] = random.pick(&[0, 0, 1, 7, 255]);
        let bytes = any_message(random);
        // Often the record keeps the message's own Source ID.
        let carried =
            reference::message::read(&bytes).ok().and_then(|record| record.source_id(&bytes));
        if let (Some(id), true) = (carried, random.flag()) {
            before[3..].copy_from_slice(&id);
        }
        check_message(tally, &before, &bytes);
    }
    for bytes in right_messages(random) {
        for state in 0..=6 {
            for kept in 0..=1 {
                let mut before: [u8; SESSION] = random.array();
                (before[0], before[2]) = (state, kept);
                check_message(tally, &before, &bytes);
                for length in 0..bytes.len() {
                    check_message(tally, &before, &bytes[..length]);
                }
            }
        }
    }
    for _ in 0..5_000 {
        let mut record = layout::session(&session::Session::fresh());
        for _ in 0..6 {
            record = check_message(tally, &record, &any_message(random));
            random.other_yes(&mut record[2]);
        }
    }
}

/// Steps that leave the session as it is, with each byte that says whether a Source ID is kept: a
/// Security Handshake in Handshake and a PIN Challenge in PinWait, each with the kept Source ID and
/// without. Each is taken twice; then a Stop Projection changes the session.
fn the_same_session(tally: &mut Tally, random: &mut Random) {
    for kept in 0..=255 {
        for (state, event, value) in [(1, SECURITY_HANDSHAKE, 4), (2, PIN_CHALLENGE, 6)] {
            let mut before: [u8; SESSION] = random.array();
            (before[0], before[2]) = (state, kept);
            let source: [u8; 16] = before[3..].try_into().expect("16 bytes");
            for source in [None, Some(source)] {
                let record = check_step(tally, &before, event, source, random.byte());
                let record = check_step(tally, &record, event, source, random.byte());
                check_step(tally, &record, STOP_PROJECTION, source, random.byte());
            }
            let (id, value) = (tlv(3, &source), tlv(value, &random.bytes(32)));
            for tlvs in [&[id.clone(), value.clone()][..], &[value]] {
                let bytes = message(event, tlvs);
                let record = check_message(tally, &before, &bytes);
                let record = check_message(tally, &record, &bytes);
                let stop = message(STOP_PROJECTION, &[tlv(0, &[65, 0]), id.clone()]);
                check_message(tally, &record, &stop);
            }
        }
    }
}

/// A Source ID lent as 0 to 40 bytes with every event, in every state, where one is kept and where
/// not. Those of its first 16 bytes that are there are the record's, or one of them is not.
fn sources_of_any_length(tally: &mut Tally, random: &mut Random) {
    let mut source = random.bytes(40);
    for length in 0..=source.len() {
        for event in 0..=255 {
            for state in 0..=255 {
                for kept in [0, 1, 2 + random.byte() % 254] {
                    let mut before: [u8; SESSION] = random.array();
                    before[0] = state;
                    before[2] = kept;
                    source[..16].copy_from_slice(&before[3..]);
                    if random.flag() {
                        source[random.below(length.clamp(1, 16))] ^= 1 << random.below(8);
                    }
                    check_lent(tally, &before, event, &source[..length], random.byte());
                }
            }
        }
    }
}

/// Records shorter than the layout: 10 before anything else, whatever the event, its source and
/// the message, and nothing is changed.
fn short(tally: &mut Tally, random: &mut Random) {
    let source = random.bytes(40);
    let right = right_messages(random).swap_remove(0);
    for length in 0..SESSION {
        let before = random.bytes(length);
        let mut compare = |call, run: &dyn Fn(&mut [u8]) -> sys::Step, what: &str| {
            let input = || format!("{length} bytes, {what}");
            let mut record = before.clone();
            let step = run(&mut record);
            tally.count_short(call);
            let answer = (step.status, step.check, step.place);
            tally.expect(call, "short", answer, (10, 0, 0), input);
            tally.expect(call, "short record", &record, &before, input);
        };
        for event in 0..=255 {
            for lent in 0..=source.len() {
                let run = |record: &mut [u8]| sys::session_step(record, event, &source[..lent], 0);
                compare(Call::SessionStep, &run, &format!("event {event}, source of {lent} bytes"));
            }
        }
        for bytes in [&right[..], &right[..5], &[]] {
            let run = |record: &mut [u8]| sys::session_message(record, bytes);
            compare(Call::SessionMessage, &run, &hex(bytes));
        }
    }
}
