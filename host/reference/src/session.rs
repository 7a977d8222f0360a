//! The sink's session, step by step (paper 01, "Sink session").

use crate::message::{
    self, PIN_CHALLENGE, SECURITY_HANDSHAKE, SESSION_REQUEST, SOURCE_READY, STOP_PROJECTION,
};
use crate::refusal::{Refusal, Refused};

/// Event 7, from the host: the DTLS handshake is done.
pub const HANDSHAKE_DONE: u8 = 7;
/// Event 8, from the host: the PIN was right.
pub const PIN_RIGHT: u8 = 8;
/// Event 9, from the host: the PIN was wrong.
pub const PIN_WRONG: u8 = 9;
/// Event 10, from the host: the connection was lost.
pub const CONNECTION_LOST: u8 = 10;

/// The bit of the option byte that asks the sink to display a PIN (001 section 2.2.7.5, bit B).
pub const SINK_DISPLAYS_PIN: u8 = 0x02;

/// The states of a session (paper 01, "Sink session"). All but `Closed` are open.
#[derive(Clone, Copy, Debug, Default, PartialEq, Eq, Hash)]
pub enum State {
    /// Nothing was received yet.
    #[default]
    Waiting,
    /// The DTLS handshake is going on.
    Handshake,
    /// The sink waits for the PIN.
    PinWait,
    /// The sink waits for Source Ready.
    ReadyWait,
    /// The source projects.
    Projecting,
    /// The session is over.
    Closed,
}

impl State {
    /// Every state, in the paper's order.
    pub const ALL: [State; 6] = [
        State::Waiting,
        State::Handshake,
        State::PinWait,
        State::ReadyWait,
        State::Projecting,
        State::Closed,
    ];
}

/// The session record. Any values may stand in it.
///
/// Where no Source ID is kept, the 16 bytes are not looked at.
#[derive(Clone, Copy, Debug, Default, PartialEq, Eq, Hash)]
pub struct Session {
    /// The state.
    pub state: State,
    /// Whether a Source ID is kept.
    pub id_kept: bool,
    /// The kept Source ID.
    pub source_id: [u8; 16],
    /// The kept option byte.
    pub options: u8,
}

impl Session {
    /// A fresh session: waiting, no Source ID kept, options 0.
    pub const fn fresh() -> Self {
        Session { state: State::Waiting, id_kept: false, source_id: [0; 16], options: 0 }
    }
}

/// What a step answers.
#[derive(Clone, Copy, Debug, PartialEq, Eq, Hash)]
pub struct Answer {
    /// The refusal number, [`Refusal::Accepted`] for an accepted event.
    pub number: Refusal,
    /// The place inside the message for a refusal by the message reader; otherwise 0.
    pub place: usize,
    /// Whether the host is to check the PIN Challenge just received.
    pub check_pin: bool,
    /// The session afterwards.
    pub session: Session,
}

impl Answer {
    /// A refusal, with the session that it leaves.
    fn refused(refused: Refused, session: Session) -> Self {
        Answer { number: refused.number, place: refused.place, check_pin: false, session }
    }
}

/// Takes one event: 1 to 6 are the commands of the messages, 7 to 10 come from the host.
///
/// The Source ID is looked at only with a message, the option byte only with a Session Request.
/// Paper 01's order: 4 for a number that is no event; 14 in Closed; 15 for a message that carries
/// another Source ID than the kept one; then the table, where all it does not name is 14 and closes
/// the session. The first Source ID carried by an accepted event is kept.
pub fn step(session: Session, event: u8, source_id: Option<[u8; 16]>, option_byte: u8) -> Answer {
    let refuse = |number: Refusal, session| Answer::refused(number.into(), session);
    if !matches!(event, SOURCE_READY..=CONNECTION_LOST) {
        return refuse(Refusal::UnknownKind, session);
    }
    if session.state == State::Closed {
        return refuse(Refusal::Unexpected, session);
    }
    let carried = source_id.filter(|_| message::is_command(event));
    if carried.is_some_and(|id| session.id_kept && id != session.source_id) {
        return refuse(Refusal::OtherSource, session);
    }
    let Some((state, options)) = next(&session, event, option_byte) else {
        return refuse(Refusal::Unexpected, Session { state: State::Closed, ..session });
    };

    let mut after = Session { state, options, ..session };
    if let (false, Some(id)) = (session.id_kept, carried) {
        after.id_kept = true;
        after.source_id = id;
    }
    // The table accepts a PIN Challenge in PinWait alone.
    Answer {
        number: Refusal::Accepted,
        place: 0,
        check_pin: event == PIN_CHALLENGE,
        session: after,
    }
}

/// Takes one event as a host lends it, with the Source ID as a run of any number of bytes.
///
/// The bytes are looked at only with a message, events 1 to 6: none at all mean that it carries no
/// Source ID, of 16 or more the first 16 are the Source ID, and 1 to 15 are refused with 10, which
/// changes nothing. With a host's event, or a number that is no event, any number of bytes is
/// taken; so 4 comes before that 10.
pub fn step_lent(session: Session, event: u8, source: &[u8], option_byte: u8) -> Answer {
    let id = match source.first_chunk() {
        _ if !message::is_command(event) || source.is_empty() => None,
        None => return Answer::refused(Refusal::NoRoom.into(), session),
        id => id.copied(),
    };
    step(session, event, id, option_byte)
}

/// The table for an open session: the next state and options, or `None` for an unexpected event.
fn next(session: &Session, event: u8, option_byte: u8) -> Option<(State, u8)> {
    use State::*;
    let kept = session.options;
    Some(match (session.state, event) {
        (Waiting, SOURCE_READY) => (Projecting, kept),
        (Waiting, SESSION_REQUEST) => (Handshake, option_byte),
        (Waiting, SECURITY_HANDSHAKE) => (Handshake, 0),
        (Handshake, SECURITY_HANDSHAKE) => (Handshake, kept),
        (Handshake, HANDSHAKE_DONE) if kept & SINK_DISPLAYS_PIN != 0 => (PinWait, kept),
        (Handshake, HANDSHAKE_DONE) => (ReadyWait, kept),
        (PinWait, PIN_CHALLENGE) => (PinWait, kept),
        (PinWait, PIN_RIGHT) => (ReadyWait, kept),
        (PinWait, PIN_WRONG) => (Closed, kept),
        (ReadyWait, SOURCE_READY) => (Projecting, kept),
        (_, STOP_PROJECTION | CONNECTION_LOST) => (Closed, kept),
        _ => return None,
    })
}

/// Takes the bytes of one message: reads it, and steps with what it says if it was accepted.
///
/// A refusal by the reader is passed on with its place and leaves the session as it is.
pub fn on_message(session: Session, bytes: &[u8]) -> Answer {
    match message::read(bytes) {
        Ok(record) => step(
            session,
            record.command,
            record.source_id(bytes),
            record.option_byte(bytes).unwrap_or(0),
        ),
        Err(refused) => Answer::refused(refused, session),
    }
}
