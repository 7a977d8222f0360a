//! Both programs together: the session projects and closes, the picture completes, and damaged
//! input changes nothing. Every expected number is written by hand from paper 01 and 02 §2.

mod programs;

use std::collections::HashMap;
use std::fs;
use std::io::{Read, Write};
use std::net::TcpStream;
use std::path::Path;

use programs::{after, root, Receiver, Step};

/// What the record of the session says of the source in the documents' examples.
const SOURCE: &str = "source 91F4ABE9EFF5464AAEE269722AED11B5";

/// What a receiver has to answer to each kind of cursor packet that the sender names (paper 01,
/// "Cursor packets").
const CURSOR_NUMBERS: [(&str, u8); 24] = [
    // "A newer one sets position and last."
    ("position (", 0),
    // "a position packet that isn't newer than the last pointer sequence is 11"
    ("again: position", 11),
    ("overtaken: position", 11),
    // "opens a picture if newer .. or if there is none"; "otherwise its data goes into the middle"
    ("start of picture 1", 0),
    ("start of picture 2", 0),
    ("continuation of picture 1", 0),
    ("continuation of picture 2", 0),
    // "This doesn't look at the sequence."
    ("again: start of picture ", 0),
    ("again: continuation of picture ", 0),
    // "A fragment of another id .. Otherwise 11."
    ("late: ", 11),
    // "fewer than 15 bytes 1"; "too few bytes 1"
    ("damaged: only 14 bytes", 1),
    ("damaged: the last byte is missing", 1),
    // "PacketMsgSize below its header, or not 7 for a position, 2"; "too many 2"
    ("damaged: a continuation of size 12", 2),
    ("damaged: a position of size 8", 2),
    ("damaged: one byte too many", 2),
    // "first byte 80 hex, second 0"; 02 §2: "the first two are judged as before". Timestamp and
    // SSRC are filled in every packet of the stream, and "those eight bytes are ignored".
    ("damaged: the first byte is 81 hex", 3),
    ("damaged: the second byte is 1", 3),
    // "a packet type not taken by that call"
    ("damaged: the type is 4", 4),
    // "negative offset, or offset plus data beyond the total"
    ("damaged: the offset is -1", 9),
    ("damaged: the data go beyond the total", 9),
    // "total above 262,144"
    ("damaged: the total is 262145", 10),
    // "total differs from the opened picture's"
    ("damaged: the total is another", 12),
    // "a filled place would get another byte, or a second start differs in its own fields"
    ("damaged: another byte for a filled place", 13),
    ("damaged: a second start with another hot spot", 13),
];

fn cursor_number(what: &str) -> u8 {
    let (_, number) = CURSOR_NUMBERS.iter().find(|(kind, _)| what.starts_with(kind)).unwrap();
    *number
}

/// Compares what the receiver did with the cursor packets with what the sender sent; gives the
/// number of packets sent and lost.
fn check_cursor(sender: &[String], receiver: &[String]) -> (usize, usize) {
    let (lost, sent): (Vec<&str>, Vec<&str>) =
        after("cursor: ", sender).partition(|what| what.starts_with("lost: "));
    let taken = Step::all("cursor: ", receiver);
    assert_eq!(sent.len(), taken.len());
    for (what, step) in sent.iter().zip(&taken) {
        assert_eq!(step.number, cursor_number(what), "{what}: {step:?}");
        // The packets are the same: their lengths and sequence numbers.
        let end_of = |text: &str| text.rsplitn(3, ", ").take(2).collect::<Vec<_>>().join(" ");
        assert_eq!(end_of(what), end_of(step.what));
    }
    for (what, pair) in sent[1..].iter().zip(taken.windows(2)) {
        let changes_nothing = pair[1].number != 0 || what.starts_with("again: ");
        assert_eq!(changes_nothing, pair[0].state == pair[1].state, "{what}: {pair:?}");
    }
    for (what, step) in sent.iter().zip(&taken) {
        if let Some(position) = what.strip_prefix("position ") {
            let (position, _) = position.split_once(')').unwrap();
            assert!(step.state.starts_with(&format!("pointer {position}), ")), "{what}: {step:?}");
        }
    }
    // What is in every stream: all but fragments, of which a small picture has few.
    for (kind, _) in CURSOR_NUMBERS.iter().filter(|(kind, _)| !kind.contains(" of picture ")) {
        assert!(sent.iter().any(|what| what.starts_with(kind)), "{kind} was not sent");
    }
    (sent.len(), lost.len())
}

/// The picture's number of bytes and its checksum, by its number, as the sender says.
fn pictures_sent(sender: &[String]) -> HashMap<&str, &str> {
    after("sender: picture ", sender).map(|text| text.split_once(" has ").unwrap()).collect()
}

/// Checks that each picture is announced once, with the packet that fills its last place, and that
/// it is the sender's.
fn check_pictures(sender: &[String], receiver: &[String]) {
    let mut announced = HashMap::new();
    let mut filled: HashMap<&str, usize> = HashMap::new();
    let mut sent = after("cursor: ", sender).filter(|what| !what.starts_with("lost: "));
    let mut completed = None;
    for line in after("cursor: ", receiver) {
        let complete = line.strip_prefix("picture ").and_then(|it| it.split_once(" is complete: "));
        if let Some((id, picture)) = complete {
            assert_eq!(completed.take(), Some(id), "{line}");
            let (length, _) = picture.split_once(", ").unwrap();
            let (_, checksum) = picture.split_once("checksum ").unwrap();
            assert_eq!(announced.insert(id, format!("{length}, checksum {checksum}")), None);
        } else if Step::of(line).is_some() {
            assert_eq!(completed, None, "a picture is complete and not announced");
            completed = completes(sent.next().unwrap(), &mut filled, sender);
        }
    }
    assert_eq!(announced.len(), 2);
    for (id, picture) in pictures_sent(sender) {
        assert_eq!(announced[id], picture);
    }
}

/// The picture that is complete with this packet. A fragment is sent once but for repeats, which
/// have another name, so that the places filled can be counted.
fn completes<'a>(
    what: &'a str,
    filled: &mut HashMap<&'a str, usize>,
    sender: &[String],
) -> Option<&'a str> {
    let (_, fragment) = what.split_once(" of picture ")?;
    if what.starts_with("again: ") || what.starts_with("late: ") {
        return None;
    }
    let (id, places) = fragment.split_once(", places ")?;
    let (from, to) = places.split_once(", ")?.0.split_once(" to ")?;
    let filled = filled.entry(id).or_default();
    *filled += to.parse::<usize>().unwrap() - from.parse::<usize>().unwrap();
    let all = format!("{filled} bytes, ");
    pictures_sent(sender)[id].starts_with(&all).then_some(id)
}

/// A step that is expected of the session: what comes, the number, the place and the state.
type Expected<'a> = (&'a str, u8, Option<usize>, &'a str);

fn check_session(receiver: &[String], expected: &[Expected]) {
    let steps = Step::all("session: ", receiver);
    for (step, (what, number, place, state)) in steps.iter().zip(expected) {
        assert!(step.what.starts_with(what), "{step:?} is not {what}");
        assert_eq!((step.number, step.place, step.state), (*number, *place, *state), "{what}");
    }
    assert_eq!(steps.len(), expected.len());
}

/// A recording that a test wrote.
fn recording(name: &str, bytes: &[u8]) -> String {
    let path = Path::new(env!("CARGO_TARGET_TMPDIR")).join(name);
    fs::write(&path, bytes).unwrap();
    path.to_str().unwrap().to_string()
}

/// The recorded session with PIN (recordings/README.md; paper 01, "Sink session"). The connection's
/// end comes in Closed, and is no step.
#[test]
fn the_session_projects_and_closes_and_the_picture_completes() {
    let receiver = Receiver::start(&["--once"]);
    let sender = receiver.play(&[]);
    let receiver = receiver.ended();
    let state = |name: &str| format!("{name}, options 3, {SOURCE}");
    let (handshake, pin_wait, closed) = (state("Handshake"), state("PinWait"), state("Closed"));
    let expected = [
        ("Session Request, 60 bytes", 0, None, &*handshake),
        ("Security Handshake, 51 bytes", 0, None, &handshake),
        ("Security Handshake, 21 bytes", 0, None, &handshake),
        ("handshake done (", 0, None, &pin_wait),
        ("PIN Challenge, 58 bytes", 0, None, &pin_wait),
        ("PIN right (", 0, None, &state("ReadyWait")),
        ("Source Ready, 28 bytes, RTSP port 7236", 0, None, &state("Projecting")),
        ("Stop Projection, 56 bytes", 0, None, &closed),
    ];
    check_session(&receiver, &expected);
    // Size 4 + 19 + 35 + 4, and the reason "PIN accepted".
    let answers: Vec<&str> = after("answer: ", &sender).collect();
    assert_eq!(answers, ["PIN Response, 62 bytes, reason 0"]);
    let (_, lost) = check_cursor(&sender, &receiver);
    assert!(lost > 0);
    check_pictures(&sender, &receiver);
}

/// Different losses, repeats and orders end with the same picture.
#[test]
fn two_seeds_end_with_the_same_picture() {
    let run = |seed: &str, loss: &str| {
        let receiver = Receiver::start(&["--once"]);
        let sender = receiver.play(&["--seed", seed, "--loss", loss]);
        let receiver = receiver.ended();
        check_cursor(&sender, &receiver);
        check_pictures(&sender, &receiver);
        let (complete, packets): (Vec<_>, Vec<_>) =
            receiver.into_iter().partition(|line| line.contains(" is complete: "));
        (complete, packets)
    };
    let (one, two) = (run("41", "10"), run("42", "60"));
    assert_eq!(one.0, two.0);
    assert_ne!(one.1, two.1);
}

#[test]
fn the_largest_and_the_smallest_picture_complete() {
    for length in ["262144", "1200", "2"] {
        let receiver = Receiver::start(&["--once"]);
        let sender = receiver.play(&["--picture", length, "--loss", "30", "--seed", length]);
        let receiver = receiver.ended();
        let (sent, _) = check_cursor(&sender, &receiver);
        // 218 fragments of 1,200 bytes and one of 544.
        assert!(length != "262144" || sent > 219);
        check_pictures(&sender, &receiver);
    }
}

/// recordings/damaged.bin: a Stop Projection whose Friendly Name has an odd Length is 6, and the
/// session goes on. A second Source Ready in Projecting is 14, which closes.
#[test]
fn a_damaged_message_changes_nothing() {
    let receiver = Receiver::start(&["--once"]);
    let sender = receiver.play(&["--recording", "recordings/damaged.bin"]);
    let receiver = receiver.ended();
    let projecting = format!("Projecting, options 0, {SOURCE}");
    let closed = format!("Closed, options 0, {SOURCE}");
    let expected = [
        ("Source Ready, 61 bytes, RTSP port 7236", 0, None, &*projecting),
        ("Stop Projection, 56 bytes", 6, Some(4), &projecting),
        ("Source Ready, 61 bytes, RTSP port 7236", 14, None, &closed),
    ];
    check_session(&receiver, &expected);
    check_cursor(&sender, &receiver);
    check_pictures(&sender, &receiver);
}

/// Messages with one fault each (paper 01, "Refusal numbers" and "Order for a message"), with the
/// number and the place: the first byte of the TLV at fault, or the number of bytes of the whole
/// message for a missing TLV.
const FAULTY: [(&[u8], u8, Option<usize>); 10] = [
    // Version 2.
    (&[0, 4, 2, 2], 3, None),
    // Command 7.
    (&[0, 4, 1, 7], 4, None),
    // Two bytes left for a TLV.
    (&[0, 6, 1, 2, 0, 0], 5, Some(4)),
    // The second TLV's value runs past the message.
    (&[0, 13, 1, 2, 0, 0, 2, 0x41, 0, 3, 0, 16, 7], 5, Some(9)),
    // A Friendly Name of three bytes.
    (&[0, 10, 1, 2, 0, 0, 3, 0x41, 0, 0x42], 6, Some(4)),
    // A Friendly Name for the second time.
    (&[0, 14, 1, 2, 0, 0, 2, 0x41, 0, 0, 0, 2, 0x42, 0], 7, Some(9)),
    // Type 1 is unknown.
    (&[0, 8, 1, 2, 1, 0, 1, 0], 8, Some(4)),
    // An RTSP Port is foreign to Stop Projection.
    (&[0, 9, 1, 2, 2, 0, 2, 0x1C, 0x44], 8, Some(4)),
    // The Source ID is missing.
    (&[0, 9, 1, 2, 0, 0, 2, 0x41, 0], 8, Some(9)),
    // A Stop Projection from another source.
    (
        &[0, 28, 1, 2, 0, 0, 2, 65, 0, 3, 0, 16, 7, 7, 7, 7, 7, 7, 7, 7, 7, 7, 7, 7, 7, 7, 7, 7],
        15,
        None,
    ),
];

/// The session with PIN, with every faulty message after each of its messages but the last.
#[test]
fn faulty_messages_in_each_state_change_nothing() {
    let session = fs::read(root().join("recordings/pin-session.bin")).unwrap();
    // The places of its messages, from recordings/README.md, with what each leads to.
    let messages = [
        (0..60, &[("Session Request", "Handshake")][..]),
        (60..111, &[("Security Handshake", "Handshake")]),
        (111..132, &[("Security Handshake", "Handshake"), ("handshake done", "PinWait")]),
        (132..190, &[("PIN Challenge", "PinWait"), ("PIN right", "ReadyWait")]),
        (190..218, &[("Source Ready", "Projecting")]),
    ];
    let state = |name: &str| format!("{name}, options 3, {SOURCE}");
    let mut bytes = Vec::new();
    let mut steps: Vec<(&str, u8, Option<usize>, String)> = Vec::new();
    for (places, accepted) in messages {
        bytes.extend_from_slice(&session[places]);
        steps.extend(accepted.iter().map(|(what, name)| (*what, 0, None, state(name))));
        let (_, name) = accepted.last().unwrap();
        for (message, number, place) in FAULTY {
            bytes.extend_from_slice(message);
            steps.push(("", number, place, state(name)));
        }
    }
    bytes.extend_from_slice(&session[218..]);
    steps.push(("Stop Projection", 0, None, state("Closed")));

    let receiver = Receiver::start(&["--once"]);
    receiver.play(&["--recording", &recording("faulty-messages.bin", &bytes)]);
    let expected: Vec<Expected> = steps
        .iter()
        .map(|(what, number, place, state)| (*what, *number, *place, &**state))
        .collect();
    check_session(&receiver.ended(), &expected);
}

/// recordings/one-byte-more.bin: the byte that is left at the connection's end is 1.
#[test]
fn a_connection_that_ends_within_a_message() {
    let receiver = Receiver::start(&["--once"]);
    receiver.play(&["--recording", "recordings/one-byte-more.bin"]);
    let projecting = "Projecting, options 0, source 07070707070707070707070707070707";
    let closed = "Closed, options 0, source 07070707070707070707070707070707";
    let expected = [
        ("Source Ready, 33 bytes, RTSP port 7236", 0, None, projecting),
        ("Stop Projection, 28 bytes", 0, None, closed),
        ("less than a header, 1 bytes", 1, None, closed),
    ];
    check_session(&receiver.ended(), &expected);
}

/// A Size below 4 is 2 and changes nothing; then the receiver closes the connection, which an open
/// session accepts.
#[test]
fn a_size_below_4_ends_the_connection() {
    let receiver = Receiver::start(&["--once"]);
    let ready = &fs::read(root().join("recordings/two-messages.bin")).unwrap()[..33];
    let mut stream = TcpStream::connect(("127.0.0.1", receiver.tcp)).unwrap();
    stream.write_all(&[ready, &[0, 3, 1, 1]].concat()).unwrap();
    let mut answers = Vec::new();
    stream.read_to_end(&mut answers).unwrap();
    assert!(answers.is_empty());
    let lines = receiver.ended();
    let source = "source 07070707070707070707070707070707";
    let projecting = format!("Projecting, options 0, {source}");
    let expected = [
        ("Source Ready, 33 bytes, RTSP port 7236", 0, None, &*projecting),
        ("Source Ready, 4 bytes", 2, None, &projecting),
        ("connection lost", 0, None, &format!("Closed, options 0, {source}")),
    ];
    check_session(&lines, &expected);
    assert!(lines.iter().any(|line| line.starts_with("session: Size 3 is below 4")));
    assert!(lines.iter().any(|line| line == "session: the receiver closes the connection"));
}

/// A sender that says nothing is let go of, before its session and after it, and the next one has
/// its turn.
#[test]
fn a_silent_sender_keeps_nobody_out() {
    let receiver = Receiver::start(&["--patience", "1"]);
    let silent = TcpStream::connect(("127.0.0.1", receiver.tcp)).unwrap();
    let mut stopped = TcpStream::connect(("127.0.0.1", receiver.tcp)).unwrap();
    stopped.write_all(&fs::read(root().join("recordings/two-messages.bin")).unwrap()).unwrap();
    receiver.play(&[]);
    let lines = receiver.stopped();
    drop((silent, stopped));
    let let_go = lines.iter().filter(|line| *line == "session: nothing came for 1 s").count();
    assert_eq!(let_go, 2);
    let steps = Step::all("session: ", &lines);
    let lost = "Closed, options 0, no source";
    assert_eq!((steps[0].what, steps[0].number, steps[0].state), ("connection lost", 0, lost));
    assert!(steps.last().unwrap().state.starts_with("Closed, options 3, "));
}

/// Each connection has a session and a cursor stream of its own: the same again is taken again.
#[test]
fn one_connection_after_another() {
    let receiver = Receiver::start(&[]);
    let first = receiver.play(&[]);
    let second = receiver.play(&[]);
    let lines = receiver.stopped();
    let end = "cursor: the connection ended, and so does its cursor stream";
    let parts: Vec<&[String]> = lines.split(|line| line == end).collect();
    assert_eq!(parts.len(), 3);
    for (sender, receiver) in [first, second].iter().zip(parts) {
        let states = Step::all("session: ", receiver);
        assert!(states.iter().any(|step| step.state.starts_with("Projecting, ")));
        check_cursor(sender, receiver);
        check_pictures(sender, receiver);
    }
}
