//! The sample receiver: listens on the loopback interface, gives what comes to the Ashlarsilk
//! calls, and prints each step in a line.
//!
//! One thread owns the session, another the cursor stream. They share no record and no buffer: the
//! library keeps nothing between calls, so that each may call at any time.

use std::env;
use std::io::{self, Read, Write};
use std::net::{Ipv4Addr, TcpListener, TcpStream, UdpSocket};
use std::process::ExitCode;
use std::sync::mpsc::{self, Receiver, Sender, TryRecvError};
use std::thread;
use std::time::Duration;

use sample::acknowledgement::{self, is_nothing_yet};
use sample::arguments::Arguments;
use sample::cursor_steps::CursorSteps;
use sample::cutting::{Cut, Cutter, HEADER};
use sample::output::line;
use sample::session_steps::{SessionSteps, Steps};

const HELP: &str = "\
usage: receiver [--tcp PORT] [--udp PORT] [--patience SECONDS] [--once] [--acknowledge]

A sample receiver on 127.0.0.1. It takes connection messages on a TCP port, one connection after
another, and cursor packets on a UDP port, and prints each step in a line.

  --tcp PORT      the port for connection messages; 7250 if not given, 0 for any free port
  --udp PORT      the port for cursor packets; 50001 if not given, 0 for any free port
  --patience SECONDS
                  how long a sender may be silent before its session begins and after its session
                  is closed, so that it doesn't keep others out; 10 if not given
  --once          ends after one connection
  --acknowledge   answers each cursor packet to its sender, for the sample sender with the same
                  option; this is no part of the protocol
  --help          prints this

Example, with the sample sender in a second terminal, at the repository's root:
  cargo run --manifest-path host/Cargo.toml --bin receiver -- --once --acknowledge
  cargo run --manifest-path host/Cargo.toml --bin sender -- --tcp 7250 --udp 50001 --acknowledge
";

/// How long the cursor stream waits for a packet before it looks whether the connection ended.
const GLANCE: Duration = Duration::from_millis(50);

/// How many packets are taken at most of those that had arrived when the connection ended.
const MOST_DRAINED: usize = 10_000;

fn main() -> ExitCode {
    match run() {
        Ok(()) => ExitCode::SUCCESS,
        Err(fault) => {
            eprintln!("receiver: {fault}");
            ExitCode::from(2)
        }
    }
}

fn run() -> Result<(), String> {
    let switches = ["--once", "--acknowledge", "--help"];
    let values = ["--tcp", "--udp", "--patience"];
    let arguments = Arguments::take(env::args_os().skip(1), &switches, &values)
        .map_err(|fault| format!("{fault}; see receiver --help"))?;
    if arguments.has("--help") {
        line(HELP.trim_end());
        return Ok(());
    }
    let tcp = arguments.number("--tcp", 0..=u16::MAX)?.unwrap_or(7250);
    let udp = arguments.number("--udp", 0..=u16::MAX)?.unwrap_or(50001);
    let patience = Duration::from_secs(arguments.number("--patience", 1..=3600)?.unwrap_or(10));
    let listener = TcpListener::bind((Ipv4Addr::LOCALHOST, tcp))
        .map_err(|fault| format!("cannot listen on TCP port {tcp}: {fault}"))?;
    let socket = UdpSocket::bind((Ipv4Addr::LOCALHOST, udp))
        .and_then(|socket| socket.set_read_timeout(Some(GLANCE)).map(|()| socket))
        .map_err(|fault| format!("cannot listen on UDP port {udp}: {fault}"))?;
    let (tcp, udp) = listener
        .local_addr()
        .and_then(|tcp| socket.local_addr().map(|udp| (tcp.port(), udp.port())))
        .map_err(|fault| format!("cannot ask for the ports: {fault}"))?;
    line(format_args!("receiver: listens on 127.0.0.1, TCP port {tcp} and UDP port {udp}"));

    let (ended, on_end) = mpsc::channel();
    let (drained, on_drained) = mpsc::channel();
    let acknowledges = arguments.has("--acknowledge");
    let cursor = thread::spawn(move || take_packets(&socket, acknowledges, &on_end, &drained));
    take_connections(&listener, patience, arguments.has("--once"), &ended, &on_drained);
    // The cursor stream ends when nobody can tell it of a connection any more.
    drop(ended);
    cursor.join().map_err(|_| "the cursor stream's thread failed".to_string())
}

/// Takes one connection after another.
fn take_connections(
    listener: &TcpListener,
    patience: Duration,
    once: bool,
    ended: &Sender<()>,
    drained: &Receiver<()>,
) {
    loop {
        match listener.accept() {
            Ok((mut stream, _)) => {
                take_messages(&mut stream, patience);
                // The connection is closed when its cursor stream is over too.
                let cursor_stream_is_gone = ended.send(()).is_err() || drained.recv().is_err();
                if once || cursor_stream_is_gone {
                    return;
                }
            }
            Err(fault) => line(format_args!("session: no connection: {fault}")),
        }
    }
}

/// Takes the messages of a connection until it ends, or until its sender has been silent for too
/// long. While a session is under way, silence is right: a source that projects says nothing.
fn take_messages(stream: &mut TcpStream, patience: Duration) {
    let mut session = SessionSteps::default();
    line(format_args!("session: a sender connected; {}", session.state()));
    let mut cutter = Cutter::default();
    let mut arrived = [0; 4096];
    loop {
        let longest = (!session.is_under_way()).then_some(patience);
        match stream.set_read_timeout(longest).and_then(|()| stream.read(&mut arrived)) {
            Ok(0) => {
                if !cutter.rest().is_empty() {
                    line("session: the connection ends within a message");
                    show(session.message(cutter.rest()), stream);
                }
                line("session: the sender closed the connection");
                break;
            }
            Ok(length) => cutter.put(&arrived[..length]),
            Err(fault) if fault.kind() == io::ErrorKind::Interrupted => {}
            Err(fault) if is_nothing_yet(&fault) => {
                let seconds = patience.as_secs();
                line(format_args!("session: nothing came for {seconds} s"));
                line("session: the receiver closes the connection");
                break;
            }
            Err(fault) => {
                line(format_args!("session: the connection broke: {fault}"));
                break;
            }
        }
        if let Err(size) = cut_messages(&mut cutter, &mut session, stream) {
            line(format_args!(
                "session: Size {size} is below 4: where the next message begins is not known"
            ));
            show(session.message(&cutter.rest()[..HEADER]), stream);
            line("session: the receiver closes the connection");
            break;
        }
    }
    show(session.connection_lost(), stream);
}

/// Takes every message that has arrived whole; the error is a Size below 4.
fn cut_messages(
    cutter: &mut Cutter,
    session: &mut SessionSteps,
    stream: &mut TcpStream,
) -> Result<(), u16> {
    loop {
        match cutter.cut() {
            Cut::Message(message) => show(session.message(message), stream),
            Cut::Incomplete => return Ok(()),
            Cut::SizeBelowHeader(size) => return Err(size),
        }
    }
}

/// Prints the lines of a message, and sends the answer.
fn show(Steps { lines, answer }: Steps, stream: &mut TcpStream) {
    lines.iter().for_each(|text| line(format_args!("session: {text}")));
    if let Some(Err(fault)) = answer.map(|answer| stream.write_all(&answer)) {
        line(format_args!("session: the answer was not sent: {fault}"));
    }
}

/// Takes cursor packets until no connection can come any more. At the end of each connection it
/// takes what has arrived, says that it did, and begins with fresh records.
fn take_packets(
    socket: &UdpSocket,
    acknowledges: bool,
    on_end: &Receiver<()>,
    drained: &Sender<()>,
) {
    let mut steps = CursorSteps::fresh();
    let mut buffer = vec![0; 65_536];
    loop {
        take_packet(socket, acknowledges, &mut steps, &mut buffer);
        match on_end.try_recv() {
            Ok(()) => {
                let mut left = MOST_DRAINED;
                while left > 0 && take_packet(socket, acknowledges, &mut steps, &mut buffer) {
                    left -= 1;
                }
                line("cursor: the connection ended, and so does its cursor stream");
                steps = CursorSteps::fresh();
                if drained.send(()).is_err() {
                    return;
                }
            }
            Err(TryRecvError::Empty) => {}
            Err(TryRecvError::Disconnected) => return,
        }
    }
}

/// Takes a packet if one comes soon, and says whether one came.
fn take_packet(
    socket: &UdpSocket,
    acknowledges: bool,
    steps: &mut CursorSteps,
    buffer: &mut [u8],
) -> bool {
    let (packet, from) = match socket.recv_from(buffer) {
        Ok((length, from)) => (&buffer[..length], from),
        Err(fault) if is_nothing_yet(&fault) => return false,
        Err(fault) => {
            line(format_args!("cursor: no packet: {fault}"));
            return false;
        }
    };
    steps.packet(packet).iter().for_each(|text| line(format_args!("cursor: {text}")));
    if acknowledges {
        if let Err(fault) = acknowledgement::send(socket, packet, from) {
            line(format_args!("cursor: not acknowledged: {fault}"));
        }
    }
    true
}
