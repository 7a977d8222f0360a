//! The sink's session.

use std::fmt;

use crate::message::{Command, SourceId};
use crate::refusal::Refused;
use crate::sys;

/// An event of the session: the six commands by number, and four from the host. Any number may be
/// given to a step; one that is no event is refused with 4.
#[derive(Clone, Copy, Debug, PartialEq, Eq, Hash)]
pub struct Event(pub u8);

impl Event {
    /// 1: the message Source Ready.
    pub const SOURCE_READY: Event = Event(1);
    /// 2: the message Stop Projection.
    pub const STOP_PROJECTION: Event = Event(2);
    /// 3: the message Security Handshake.
    pub const SECURITY_HANDSHAKE: Event = Event(3);
    /// 4: the message Session Request.
    pub const SESSION_REQUEST: Event = Event(4);
    /// 5: the message PIN Challenge.
    pub const PIN_CHALLENGE: Event = Event(5);
    /// 6: the message PIN Response.
    pub const PIN_RESPONSE: Event = Event(6);
    /// 7: the DTLS handshake is done.
    pub const HANDSHAKE_DONE: Event = Event(7);
    /// 8: the PIN was right.
    pub const PIN_RIGHT: Event = Event(8);
    /// 9: the PIN was wrong.
    pub const PIN_WRONG: Event = Event(9);
    /// 10: the connection is lost.
    pub const CONNECTION_LOST: Event = Event(10);
}

impl From<Command> for Event {
    fn from(command: Command) -> Self {
        Event(command.0)
    }
}

impl fmt::Display for Event {
    fn fmt(&self, f: &mut fmt::Formatter<'_>) -> fmt::Result {
        f.pad(match self.0 {
            7 => "handshake done",
            8 => "PIN right",
            9 => "PIN wrong",
            10 => "connection lost",
            command @ 1..=6 => return Command(command).fmt(f),
            other => return write!(f, "event {other}"),
        })
    }
}

/// The states of a session. All but `Closed` are open.
#[derive(Clone, Copy, Debug, PartialEq, Eq, Hash)]
#[repr(u8)]
pub enum State {
    /// Nothing was received yet.
    Waiting = 0,
    /// The DTLS handshake is going on.
    Handshake = 1,
    /// The sink shows a PIN and waits for the hash of it.
    PinWait = 2,
    /// The sink waits for Source Ready.
    ReadyWait = 3,
    /// The source projects.
    Projecting = 4,
    /// The session is over.
    Closed = 5,
}

impl State {
    /// Every state, by rising number.
    pub const ALL: [State; 6] = [
        State::Waiting,
        State::Handshake,
        State::PinWait,
        State::ReadyWait,
        State::Projecting,
        State::Closed,
    ];

    /// The state with this number in a record; any above 4 is `Closed`.
    pub const fn from_number(number: u8) -> State {
        match number {
            0 => State::Waiting,
            1 => State::Handshake,
            2 => State::PinWait,
            3 => State::ReadyWait,
            4 => State::Projecting,
            _ => State::Closed,
        }
    }
}

impl fmt::Display for State {
    fn fmt(&self, f: &mut fmt::Formatter<'_>) -> fmt::Result {
        f.pad(match self {
            State::Waiting => "Waiting",
            State::Handshake => "Handshake",
            State::PinWait => "PinWait",
            State::ReadyWait => "ReadyWait",
            State::Projecting => "Projecting",
            State::Closed => "Closed",
        })
    }
}

/// What an accepted step asks of the host.
#[derive(Clone, Copy, Debug, PartialEq, Eq, Hash)]
pub struct Accepted {
    /// Whether the host is to check the PIN Challenge just received, and to step with
    /// [`Event::PIN_RIGHT`] or [`Event::PIN_WRONG`] next.
    pub check_pin: bool,
}

/// The record of a session, which a host keeps for each connection.
///
/// It is kept in the layout that the library reads and writes, [`Session::LENGTH`] bytes:
///
/// | Place | Bytes | |
/// |---|---|---|
/// | 0 | 1 | the state: 0 Waiting, 1 Handshake, 2 PinWait, 3 ReadyWait, 4 Projecting, any other Closed |
/// | 1 | 1 | the options |
/// | 2 | 1 | whether a Source ID is kept |
/// | 3 | 16 | the Source ID; where none is kept, not looked at |
///
/// Two records are equal if they say the same.
#[derive(Clone, Copy)]
pub struct Session {
    record: [u8; Session::LENGTH],
}

impl Session {
    /// The number of bytes of the layout.
    pub const LENGTH: usize = 19;

    /// The session of a new connection: Waiting, options 0, no Source ID kept. Every byte is 0, as
    /// `ashlarsilk_session_fresh` writes them.
    ///
    /// ```
    /// use ashlarsilk::{Session, State};
    ///
    /// let session = Session::fresh();
    /// assert_eq!(session.state(), State::Waiting);
    /// assert_eq!(session.source_id(), None);
    /// ```
    pub const fn fresh() -> Self {
        Session { record: [0; Self::LENGTH] }
    }

    /// The session in these bytes, whatever they are.
    pub const fn from_bytes(record: [u8; Self::LENGTH]) -> Self {
        Session { record }
    }

    /// The bytes of the record.
    pub const fn as_bytes(&self) -> &[u8; Self::LENGTH] {
        &self.record
    }

    /// The state.
    pub const fn state(&self) -> State {
        State::from_number(self.record[0])
    }

    /// The option byte of the Session Request, or 0.
    pub const fn options(&self) -> u8 {
        self.record[1]
    }

    /// The Source ID that is kept, if one is.
    pub fn source_id(&self) -> Option<SourceId> {
        let &[_, _, kept, id @ ..] = &self.record;
        (kept != 0).then_some(SourceId(id))
    }

    /// A step with an event. The Source ID is looked at only with a message, the options only with
    /// a Session Request. Refusals: 4, 14 and 15. They change nothing, but for 14, which closes an
    /// open session. An accepted step that leaves the session as it was leaves each byte of it.
    ///
    /// ```
    /// use ashlarsilk::{Event, Refusal, Session, SourceId, State};
    ///
    /// let mut session = Session::fresh();
    /// let source = SourceId([7; 16]);
    /// session.step(Event::SESSION_REQUEST, Some(&source), 3)?;
    /// session.step(Event::HANDSHAKE_DONE, None, 0)?;
    /// assert_eq!(session.state(), State::PinWait);
    ///
    /// // Another source is refused, and the session goes on.
    /// let refused =
    ///     session.step(Event::PIN_CHALLENGE, Some(&SourceId([8; 16])), 0).unwrap_err();
    /// assert_eq!(refused.refusal, Refusal::OtherSource);
    /// assert!(session.step(Event::PIN_CHALLENGE, Some(&source), 0)?.check_pin);
    ///
    /// // A Session Request is not expected now: the session closes.
    /// let refused = session.step(Event::SESSION_REQUEST, Some(&source), 0).unwrap_err();
    /// assert_eq!(refused.refusal, Refusal::UnexpectedEvent);
    /// assert_eq!(session.state(), State::Closed);
    /// # Ok::<(), ashlarsilk::Refused>(())
    /// ```
    #[inline]
    pub fn step(
        &mut self,
        event: Event,
        source: Option<&SourceId>,
        options: u8,
    ) -> Result<Accepted, Refused> {
        let source = source.map_or(&[][..], |id| &id.0);
        Self::answer(sys::session_step(&mut self.record, event.0, source, options))
    }

    /// A step with a message, which is all of `bytes`. Refusals: 1 to 8 as by
    /// [`Message::read`](crate::Message::read), 14 and 15. They change nothing, but for 14, which
    /// closes an open session.
    ///
    /// ```
    /// use ashlarsilk::{Session, SourceId, State};
    ///
    /// let mut bytes = vec![0, 28, 1, 1, 2, 0, 2, 0x1C, 0x44, 3, 0, 16];
    /// bytes.extend([7; 16]);
    /// let mut session = Session::fresh();
    /// session.message(&bytes)?;
    /// assert_eq!(session.state(), State::Projecting);
    /// assert_eq!(session.source_id(), Some(SourceId([7; 16])));
    ///
    /// // A damaged message changes nothing.
    /// bytes[9] = 1;
    /// assert_eq!(session.message(&bytes).unwrap_err().place, 9);
    /// assert_eq!(session.state(), State::Projecting);
    /// # Ok::<(), ashlarsilk::Refused>(())
    /// ```
    #[inline]
    pub fn message(&mut self, bytes: &[u8]) -> Result<Accepted, Refused> {
        Self::answer(sys::session_message(&mut self.record, bytes))
    }

    #[inline]
    fn answer(step: sys::Step) -> Result<Accepted, Refused> {
        Refused::check(step.status, step.place)?;
        Ok(Accepted { check_pin: step.check != 0 })
    }
}

impl Default for Session {
    fn default() -> Self {
        Session::fresh()
    }
}

impl PartialEq for Session {
    fn eq(&self, other: &Self) -> bool {
        let said = |session: &Self| (session.state(), session.options(), session.source_id());
        said(self) == said(other)
    }
}

impl Eq for Session {}

impl fmt::Debug for Session {
    fn fmt(&self, f: &mut fmt::Formatter<'_>) -> fmt::Result {
        f.debug_struct("Session")
            .field("state", &self.state())
            .field("options", &self.options())
            .field("source_id", &self.source_id())
            .finish()
    }
}
