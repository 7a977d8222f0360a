//! The receiver's session: what comes over the connection is given to the calls, and each step is
//! told in a line.

use ashlarsilk::{Accepted, Command, Event, Field, Message, Refused, Session, State, Tlv};

use crate::handshake;

/// What came of one message: the lines to show, and a message to be sent to the source.
#[derive(Debug, Default, PartialEq, Eq)]
pub struct Steps {
    /// A line a step.
    pub lines: Vec<String>,
    /// The answer to the source, if there is one.
    pub answer: Option<Vec<u8>>,
}

/// The session of one connection.
#[derive(Default)]
pub struct SessionSteps {
    session: Session,
}

impl SessionSteps {
    /// Takes a message, which is all of `bytes`, and does what it asks of a host.
    pub fn message(&mut self, bytes: &[u8]) -> Steps {
        let mut steps = Steps::default();
        let answer = self.session.message(bytes);
        steps.lines.push(self.line(&described(bytes), answer));
        if let (Ok(accepted), Ok(message)) = (answer, Message::read(bytes)) {
            if accepted.check_pin {
                self.answer_pin(&message, bytes, &mut steps);
            } else if self.session.state() == State::Handshake
                && handshake::is_done_after(&message, bytes)
            {
                let done = "the DTLS handshake is the host's; this sample takes it as done";
                self.event(Event::HANDSHAKE_DONE, Some(done), &mut steps);
            }
        }
        steps
    }

    /// The connection is over. A session that is closed already has nothing to lose: no event is
    /// given to it.
    pub fn connection_lost(&mut self) -> Steps {
        let mut steps = Steps::default();
        if self.session.state() != State::Closed {
            self.event(Event::CONNECTION_LOST, None, &mut steps);
        }
        steps
    }

    /// Whether the session has begun and is not closed.
    pub fn is_under_way(&self) -> bool {
        !matches!(self.session.state(), State::Waiting | State::Closed)
    }

    /// What the record of the session says.
    pub fn state(&self) -> String {
        let source = match self.session.source_id() {
            Some(id) => format!("source {id}"),
            None => "no source".to_string(),
        };
        format!("{}, options {}, {source}", self.session.state(), self.session.options())
    }

    /// Takes the PIN as right, and answers with a PIN Response.
    fn answer_pin(&mut self, challenge: &Message, bytes: &[u8], steps: &mut Steps) {
        let right = "computing the PIN is the host's; this sample takes every PIN as right";
        if !self.event(Event::PIN_RIGHT, Some(right), steps) {
            return;
        }
        let line = match pin_response(challenge, bytes) {
            Ok(response) => {
                let line = format!("answered with {}", described(&response));
                steps.answer = Some(response);
                line
            }
            Err(refused) => format!("no answer: {refused}"),
        };
        steps.lines.push(format!("{line}; {}", self.state()));
    }

    /// Gives an event of the host's to the session, and says whether it was accepted.
    fn event(&mut self, event: Event, why: Option<&str>, steps: &mut Steps) -> bool {
        let answer = self.session.step(event, None, 0);
        let what = match why {
            Some(why) => format!("{event} ({why})"),
            None => event.to_string(),
        };
        steps.lines.push(self.line(&what, answer));
        answer.is_ok()
    }

    /// What came, what was answered, and the state afterwards.
    fn line(&self, what: &str, answer: Result<Accepted, Refused>) -> String {
        let answer = match answer {
            Ok(Accepted { check_pin: true }) => {
                "accepted, the host is to check the PIN".to_string()
            }
            Ok(Accepted { check_pin: false }) => "accepted".to_string(),
            Err(refused) => format!("refused: {refused}"),
        };
        format!("{what}: {answer}; {}", self.state())
    }
}

/// The kind of a message, its length, and what a host would look at.
pub fn described(bytes: &[u8]) -> String {
    let kind = match bytes {
        [_, _, _, command, ..] => Command(*command).to_string(),
        _ => "less than a header".to_string(),
    };
    let mut text = format!("{kind}, {} bytes", bytes.len());
    if let Ok(message) = Message::read(bytes) {
        if let Some(port) = message.rtsp_port(bytes) {
            text += &format!(", RTSP port {port}");
        }
        if let Some(&[reason]) = message.value(bytes, Tlv::PinReason) {
            text += &format!(", reason {reason}");
        }
    }
    text
}

/// The answer to a PIN Challenge whose PIN was right (MS-MICE 3.0, sections 2.2.6 and 3.1.5.6): its
/// Source ID, the receiver's own hash, and the reason 0. The sample computes no hash: its bytes are
/// zero.
fn pin_response(challenge: &Message, bytes: &[u8]) -> Result<Vec<u8>, Refused> {
    const HASH: u32 = 32;
    // The values stand in the challenge's bytes and in zeros after them, for hash and reason.
    let place = bytes.len() as u32;
    let values = [bytes, &[0; HASH as usize + 1]].concat();
    let mut message = Message::new(Command::PIN_RESPONSE);
    message.set(Tlv::SourceId, challenge.field(Tlv::SourceId));
    message.set(Tlv::PinChallenge, Some(Field { place, length: HASH }));
    message.set(Tlv::PinReason, Some(Field { place: place + HASH, length: 1 }));
    let mut out = vec![0; 128];
    let size = message.write(&values, &mut out)?;
    out.truncate(size);
    Ok(out)
}

#[cfg(test)]
mod tests {
    use super::*;

    const ID: [u8; 19] = [3, 0, 16, 7, 7, 7, 7, 7, 7, 7, 7, 7, 7, 7, 7, 7, 7, 7, 7];

    /// A PIN Challenge of 4 + 4 + 19 bytes in PinWait gets the PIN Response of MS-MICE 3.0, section
    /// 2.2.6: Size 4 + 19 + 35 + 4, TLVs by rising type.
    #[test]
    fn a_pin_challenge_is_answered() {
        let mut steps = SessionSteps::default();
        // Options 2: a PIN and no stream encryption, so that no handshake follows.
        steps.message(&[&[0, 32, 1, 4, 0, 0, 2, 0x41, 0, 5, 0, 1, 2][..], &ID].concat());
        assert_eq!(steps.session.state(), State::PinWait);
        let Steps { lines, answer } =
            steps.message(&[&[0, 27, 1, 5, 6, 0, 1, 0xAB][..], &ID].concat());
        assert_eq!(steps.session.state(), State::ReadyWait);
        assert_eq!(lines.len(), 3);
        let expected = [&[0, 62, 1, 6][..], &ID, &[6, 0, 32], &[0; 32], &[7, 0, 1, 0]].concat();
        assert_eq!(answer, Some(expected));
    }

    /// A challenge that is refused gets no answer: in Waiting it is 14.
    #[test]
    fn no_answer_to_a_refused_challenge() {
        let mut steps = SessionSteps::default();
        let Steps { lines, answer } =
            steps.message(&[&[0, 27, 1, 5, 6, 0, 1, 0xAB][..], &ID].concat());
        assert_eq!(answer, None);
        assert_eq!(lines.len(), 1);
        assert!(lines[0].ends_with("(refusal 14); Closed, options 0, no source"), "{lines:?}");
    }

    /// The end of the connection closes an open session, and is no step of a closed one.
    #[test]
    fn a_closed_session_loses_no_connection() {
        let mut steps = SessionSteps::default();
        assert!(!steps.is_under_way());
        steps.message(&[&[0, 28, 1, 1, 2, 0, 2, 0x1C, 0x44][..], &ID].concat());
        assert!(steps.is_under_way());
        assert_eq!(steps.connection_lost().lines.len(), 1);
        assert_eq!(steps.session.state(), State::Closed);
        assert!(!steps.is_under_way());
        assert_eq!(steps.connection_lost(), Steps::default());
    }

    #[test]
    fn any_bytes_are_described() {
        assert_eq!(described(&[]), "less than a header, 0 bytes");
        assert_eq!(described(&[0, 4, 1, 9]), "command 9, 4 bytes");
        assert_eq!(described(&[0, 4, 1, 2]), "Stop Projection, 4 bytes");
        let ready = [&[0, 28, 1, 1, 2, 0, 2, 0x1C, 0x44][..], &ID].concat();
        assert_eq!(described(&ready), "Source Ready, 28 bytes, RTSP port 7236");
    }
}
