//! The sink session: the whole table, the kept Source ID and the order of checks.

mod common;

use common::{accepted_messages, id, message, name, port, tlv};
use reference::session::{on_message, step, step_lent, Answer, Session, State};
use reference::Refusal;

const ONE: [u8; 16] = [1; 16];
const TWO: [u8; 16] = [2; 16];

fn session(state: State) -> Session {
    Session { state, ..Session::fresh() }
}

fn seen(answer: Answer) -> (u8, State) {
    (answer.number.number(), answer.session.state)
}

/// The rows of paper 01's table: state, event, PIN option, next state.
const TABLE: &[(State, u8, Option<bool>, State)] = &[
    (State::Waiting, 1, None, State::Projecting),
    (State::Waiting, 2, None, State::Closed),
    (State::Waiting, 3, None, State::Handshake),
    (State::Waiting, 4, None, State::Handshake),
    (State::Waiting, 10, None, State::Closed),
    (State::Handshake, 2, None, State::Closed),
    (State::Handshake, 3, None, State::Handshake),
    (State::Handshake, 7, Some(true), State::PinWait),
    (State::Handshake, 7, Some(false), State::ReadyWait),
    (State::Handshake, 10, None, State::Closed),
    (State::PinWait, 2, None, State::Closed),
    (State::PinWait, 5, None, State::PinWait),
    (State::PinWait, 8, None, State::ReadyWait),
    (State::PinWait, 9, None, State::Closed),
    (State::PinWait, 10, None, State::Closed),
    (State::ReadyWait, 1, None, State::Projecting),
    (State::ReadyWait, 2, None, State::Closed),
    (State::ReadyWait, 10, None, State::Closed),
    (State::Projecting, 2, None, State::Closed),
    (State::Projecting, 10, None, State::Closed),
];

/// What paper 01 says of one step, from the table's rows.
fn expected(before: Session, event: u8, id: Option<[u8; 16]>, option_byte: u8) -> Answer {
    let answer = |number, session| Answer { number, place: 0, check_pin: false, session };
    if event == 0 || event > 10 {
        return answer(Refusal::UnknownKind, before);
    }
    if before.state == State::Closed {
        return answer(Refusal::Unexpected, before);
    }
    let id = if event <= 6 { id } else { None };
    if before.id_kept && id.is_some() && id != Some(before.source_id) {
        return answer(Refusal::OtherSource, before);
    }
    let pin = before.options / 2 % 2 == 1;
    let row = TABLE
        .iter()
        .find(|row| row.0 == before.state && row.1 == event && row.2.is_none_or(|set| set == pin));
    let mut after = before;
    let Some(&(.., state)) = row else {
        after.state = State::Closed;
        return answer(Refusal::Unexpected, after);
    };
    after.state = state;
    if before.state == State::Waiting && event == 4 {
        after.options = option_byte;
    }
    if before.state == State::Waiting && event == 3 {
        after.options = 0;
    }
    if let (Some(id), false) = (id, before.id_kept) {
        after.id_kept = true;
        after.source_id = id;
    }
    Answer { check_pin: event == 5, ..answer(Refusal::Accepted, after) }
}

#[test]
fn every_state_event_source_id_and_option() {
    for state in State::ALL {
        for event in 0..=255 {
            for id_kept in [false, true] {
                for kept in [[0; 16], ONE, TWO] {
                    for options in [0, 1, 2, 3, 0xFC, 0xFD, 0xFE, 0xFF] {
                        for id in [None, Some([0; 16]), Some(ONE), Some(TWO)] {
                            for option_byte in [0, 1, 2, 0xFF] {
                                let before = Session { state, id_kept, source_id: kept, options };
                                assert_eq!(
                                    step(before, event, id, option_byte),
                                    expected(before, event, id, option_byte),
                                    "{before:?} {event} {id:?} {option_byte}"
                                );
                            }
                        }
                    }
                }
            }
        }
    }
}

#[test]
fn a_fresh_session_waits() {
    let fresh = Session { state: State::Waiting, id_kept: false, source_id: [0; 16], options: 0 };
    assert_eq!(Session::fresh(), fresh);
    assert_eq!(Session::default(), fresh);
}

#[test]
fn no_event_is_4_in_any_state_and_first() {
    for state in State::ALL {
        for event in (11..=255).chain([0]) {
            let before = Session { id_kept: true, source_id: ONE, ..session(state) };
            let answer = step(before, event, Some(TWO), 3);
            assert_eq!(answer.number, Refusal::UnknownKind);
            assert_eq!(answer.session, before);
        }
    }
}

#[test]
fn in_closed_every_event_is_14_and_changes_nothing() {
    for event in 1..=10 {
        let before =
            Session { id_kept: true, source_id: ONE, options: 3, ..session(State::Closed) };
        let answer = step(before, event, Some(TWO), 9);
        assert_eq!((answer.number, answer.session), (Refusal::Unexpected, before));
    }
}

#[test]
fn another_source_is_15_before_the_table_for_messages_only() {
    for state in
        [State::Waiting, State::Handshake, State::PinWait, State::ReadyWait, State::Projecting]
    {
        let before = Session { id_kept: true, source_id: ONE, ..session(state) };
        for event in 1..=6 {
            let answer = step(before, event, Some(TWO), 0);
            assert_eq!((answer.number, answer.session), (Refusal::OtherSource, before));
            assert!(!answer.check_pin);
        }
        for event in 7..=10 {
            let with = step(before, event, Some(TWO), 0);
            assert_eq!(with, step(before, event, None, 0));
        }
    }
}

#[test]
fn an_id_that_is_not_kept_is_not_looked_at() {
    let before = Session { id_kept: false, source_id: ONE, ..session(State::Waiting) };
    let answer = step(before, 1, Some(TWO), 0);
    assert_eq!(seen(answer), (0, State::Projecting));
    assert_eq!((answer.session.id_kept, answer.session.source_id), (true, TWO));
}

#[test]
fn only_accepted_events_keep_an_id() {
    let closed = step(session(State::Waiting), 2, Some(ONE), 0);
    assert_eq!(seen(closed), (0, State::Closed));
    assert_eq!((closed.session.id_kept, closed.session.source_id), (true, ONE));

    let unexpected = step(session(State::Waiting), 5, Some(ONE), 0);
    assert_eq!(unexpected.number, Refusal::Unexpected);
    assert_eq!(unexpected.session, session(State::Closed));

    let host = step(session(State::Handshake), 7, Some(ONE), 0);
    assert_eq!(seen(host), (0, State::ReadyWait));
    assert!(!host.session.id_kept);
}

#[test]
fn a_handshake_without_an_id_leaves_the_first_id_to_a_later_message() {
    let first = step(Session::fresh(), 3, None, 0).session;
    assert!(!first.id_kept);
    let second = step(first, 3, Some(ONE), 0).session;
    assert_eq!((second.id_kept, second.source_id), (true, ONE));
    assert_eq!(step(second, 3, Some(TWO), 0).number, Refusal::OtherSource);
}

#[test]
fn options_come_from_a_session_request_in_waiting_only() {
    let before = Session { options: 0x55, ..session(State::Waiting) };
    assert_eq!(step(before, 4, None, 0xFF).session.options, 0xFF);
    assert_eq!(step(before, 3, None, 0xFF).session.options, 0);
    assert_eq!(step(before, 1, None, 0xFF).session.options, 0x55);
    let before = Session { options: 0x55, ..session(State::Handshake) };
    assert_eq!(step(before, 3, None, 0xFF).session.options, 0x55);
    let closed = step(before, 4, None, 0xFF);
    assert_eq!(seen(closed), (14, State::Closed));
    assert_eq!(closed.session.options, 0x55);
}

#[test]
fn the_pin_option_is_bit_2_alone() {
    for options in 0..=255 {
        let before = Session { options, ..session(State::Handshake) };
        let state = if options & 2 == 2 { State::PinWait } else { State::ReadyWait };
        assert_eq!(seen(step(before, 7, None, 0)), (0, state));
    }
}

#[test]
fn only_an_accepted_pin_challenge_asks_for_a_check() {
    for state in State::ALL {
        for event in 0..=255 {
            let asks = step(session(state), event, None, 0).check_pin;
            assert_eq!(asks, state == State::PinWait && event == 5);
        }
    }
}

#[test]
fn a_lent_source_of_any_length() {
    let source: Vec<u8> = (1..=40).collect();
    let first: [u8; 16] = source[..16].try_into().unwrap();
    for length in 0..=source.len() {
        for state in State::ALL {
            for (id_kept, source_id) in [(false, ONE), (true, ONE), (true, first)] {
                let before = Session { state, id_kept, source_id, options: 2 };
                for event in 0..=255 {
                    let lent = step_lent(before, event, &source[..length], 3);
                    let expected = match (event, length) {
                        (1..=6, 0) => step(before, event, None, 3),
                        (1..=6, 1..=15) => Answer {
                            number: Refusal::NoRoom,
                            place: 0,
                            check_pin: false,
                            session: before,
                        },
                        (1..=6, _) => step(before, event, Some(first), 3),
                        _ => step(before, event, None, 3),
                    };
                    assert_eq!(lent, expected, "{before:?} {event}, {length} bytes");
                }
            }
        }
    }
}

#[test]
fn a_lent_source_of_1_to_15_bytes_is_10_with_a_message_only() {
    let before = Session { id_kept: true, source_id: ONE, options: 2, ..session(State::Waiting) };
    let request = step_lent(before, 4, &[1; 5], 3);
    assert_eq!((request.number, request.place), (Refusal::NoRoom, 0));
    assert_eq!(request.session, before);
    // Also where the step itself would be refused.
    let closed = Session { state: State::Closed, ..before };
    assert_eq!(step_lent(closed, 4, &[1; 5], 3).number, Refusal::NoRoom);
    let unexpected = step_lent(before, 6, &[1; 15], 3);
    assert_eq!((unexpected.number, unexpected.session), (Refusal::NoRoom, before));

    let lost = step_lent(before, 10, &[1; 5], 3);
    assert_eq!(seen(lost), (0, State::Closed));
    assert_eq!(lost.session, Session { state: State::Closed, ..before });
    let handshake = Session { state: State::Handshake, ..before };
    assert_eq!(seen(step_lent(handshake, 7, &[2; 5], 3)), (0, State::PinWait));

    for event in [0, 11, 255] {
        let none = step_lent(before, event, &[1; 5], 3);
        assert_eq!((none.number, none.session), (Refusal::UnknownKind, before));
    }
}

#[test]
fn of_a_longer_lent_source_the_first_16_bytes_are_taken() {
    for length in [16, 17, 40] {
        let mut source = vec![9; length];
        source[..16].copy_from_slice(&ONE);
        let request = step_lent(Session::fresh(), 4, &source, 3);
        assert_eq!(seen(request), (0, State::Handshake));
        let kept = Session { id_kept: true, source_id: ONE, options: 3, state: State::Handshake };
        assert_eq!(request.session, kept);
        assert_eq!(step_lent(kept, 3, &source, 0).number, Refusal::Accepted);
        source[15] = 2;
        assert_eq!(step_lent(kept, 3, &source, 0).number, Refusal::OtherSource);
    }
}

#[test]
fn a_refused_message_leaves_the_session() {
    for state in State::ALL {
        let before = Session { id_kept: true, source_id: ONE, options: 2, ..session(state) };
        for (bytes, number, place) in [
            (vec![], 1, 0),
            (vec![0, 3, 1, 1], 2, 0),
            (vec![0, 4, 2, 1], 3, 0),
            (vec![0, 4, 1, 7], 4, 0),
            (message(1, &[vec![9]]), 5, 4),
            (message(1, &[port(), tlv(3, &[1])]), 6, 9),
            (message(1, &[port(), port()]), 7, 9),
            (message(1, &[port(), id(1), tlv(9, &[1])]), 8, 28),
            (message(1, &[port()]), 8, 9),
        ] {
            let answer = on_message(before, &bytes);
            assert_eq!((answer.number.number(), answer.place), (number, place));
            assert_eq!(answer.session, before);
            assert!(!answer.check_pin);
        }
    }
}

#[test]
fn a_message_steps_with_what_it_says() {
    for state in State::ALL {
        for (event, bytes) in (1..).zip(accepted_messages()) {
            for source_id in [[7; 16], ONE] {
                for id_kept in [false, true] {
                    let before = Session { id_kept, source_id, options: 2, state };
                    let stepped = step(before, event, Some([7; 16]), 3);
                    assert_eq!(on_message(before, &bytes), stepped);
                }
            }
        }
    }
    let without_id = message(3, &[tlv(4, &[1])]);
    let before = Session { id_kept: true, source_id: ONE, ..session(State::Handshake) };
    assert_eq!(seen(on_message(before, &without_id)), (0, State::Handshake));
}

#[test]
fn refusals_14_and_15_of_a_message_have_place_0() {
    let before = Session { id_kept: true, source_id: ONE, ..session(State::Projecting) };
    let answer = on_message(before, &message(1, &[name(), port(), id(1)]));
    assert_eq!((answer.number, answer.place), (Refusal::Unexpected, 0));
    assert_eq!(answer.session, Session { state: State::Closed, ..before });
    let answer = on_message(before, &message(1, &[name(), port(), id(2)]));
    assert_eq!((answer.number, answer.place), (Refusal::OtherSource, 0));
    assert_eq!(answer.session, before);
}
