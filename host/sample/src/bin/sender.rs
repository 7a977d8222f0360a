//! The sample sender: plays a recording of connection messages and a cursor stream at a receiver on
//! the loopback interface, and prints each thing that it sends in a line.

use std::env;
use std::ffi::OsStr;
use std::fs;
use std::io::{self, Read, Write};
use std::net::{Ipv4Addr, Shutdown, TcpStream, UdpSocket};
use std::path::Path;
use std::process::ExitCode;
use std::thread;
use std::time::Duration;

use sample::acknowledgement;
use sample::arguments::Arguments;
use sample::checksum::Checksum;
use sample::cutting::{Cut, Cutter};
use sample::output::line;
use sample::packets::Picture;
use sample::random::Random;
use sample::recording::{pieces, place_of_cursor_stream};
use sample::session_steps::described;
use sample::stream::{pictures, stream, Item, MOST_LOSS};

const HELP: &str = "\
usage: sender --tcp PORT --udp PORT [--recording FILE] [--seed NUMBER] [--loss PERCENT]
              [--picture BYTES] [--acknowledge]

A sample sender. It plays a recording of connection messages at a receiver on 127.0.0.1, in pieces
of odd lengths, and a cursor stream with lost, repeated, reordered and damaged packets, and prints
each thing that it sends in a line. A Stop Projection at the recording's end is sent after the
cursor stream.

  --tcp PORT        the receiver's port for connection messages
  --udp PORT        the receiver's port for cursor packets
  --recording FILE  the recording; recordings/pin-session.bin if not given, which is there at the
                    repository's root
  --seed NUMBER     chooses loss, repeats, order and lengths; 1 if not given
  --loss PERCENT    how much of the fragments and positions is lost, 0 to 90; 20 if not given
  --picture BYTES   the length of the cursor picture, 2 to 262144; 16384 if not given
  --acknowledge     waits for the answer of the sample receiver, started with the same option, to
                    each cursor packet; this is no part of the protocol
  --help            prints this

Example, with the sample receiver in a second terminal, at the repository's root:
  cargo run --manifest-path host/Cargo.toml --bin receiver -- --once --acknowledge
  cargo run --manifest-path host/Cargo.toml --bin sender -- --tcp 7250 --udp 50001 --acknowledge
";

const DEFAULT_RECORDING: &str = "recordings/pin-session.bin";

/// The pause after a cursor packet that nobody acknowledges, so that the receiver keeps up.
const PAUSE: Duration = Duration::from_millis(5);

fn main() -> ExitCode {
    match run() {
        Ok(()) => ExitCode::SUCCESS,
        Err(fault) => {
            eprintln!("sender: {fault}");
            ExitCode::from(2)
        }
    }
}

fn run() -> Result<(), String> {
    let values = ["--tcp", "--udp", "--recording", "--seed", "--loss", "--picture"];
    let arguments = Arguments::take(env::args_os().skip(1), &["--acknowledge", "--help"], &values)
        .map_err(|fault| format!("{fault}; see sender --help"))?;
    if arguments.has("--help") {
        line(HELP.trim_end());
        return Ok(());
    }
    let port = |name: &str| {
        let port = arguments.number(name, 1..=u16::MAX)?;
        port.ok_or_else(|| format!("{name} PORT is needed; see sender --help"))
    };
    let (tcp, udp) = (port("--tcp")?, port("--udp")?);
    let seed = arguments.number("--seed", 0..=u64::MAX)?.unwrap_or(1);
    let loss = arguments.number("--loss", 0..=MOST_LOSS)?.unwrap_or(20);
    let length = arguments.number("--picture", 2..=262_144)?.unwrap_or(16_384);
    let path = Path::new(arguments.value("--recording").unwrap_or(OsStr::new(DEFAULT_RECORDING)));
    let recording =
        fs::read(path).map_err(|fault| format!("cannot read {}: {fault}", path.display()))?;

    let mut connection = Connection::open(tcp, seed)?;
    let socket = open_socket(udp)?;
    let (before, after) = recording.split_at(place_of_cursor_stream(&recording));
    connection.play(before, 0);
    let pictures = pictures(length);
    for item in stream(&pictures, seed, loss) {
        send(&item, &socket, arguments.has("--acknowledge"))
            .map_err(|fault| format!("cannot reach UDP port {udp}: {fault}"))?;
    }
    connection.play(after, before.len());
    connection.close();
    for Picture { id, bytes, .. } in &pictures {
        let checksum = Checksum::of(bytes);
        line(format_args!("sender: picture {id} has {} bytes, checksum {checksum}", bytes.len()));
    }
    Ok(())
}

/// A socket for cursor packets, connected to the receiver's port.
fn open_socket(port: u16) -> Result<UdpSocket, String> {
    UdpSocket::bind((Ipv4Addr::LOCALHOST, 0))
        .and_then(|socket| socket.connect((Ipv4Addr::LOCALHOST, port)).map(|()| socket))
        .map_err(|fault| format!("cannot use UDP port {port}: {fault}"))
}

/// Sends a cursor packet, unless it is to be lost.
fn send(item: &Item, socket: &UdpSocket, acknowledged: bool) -> io::Result<()> {
    line(format_args!("cursor: {item}"));
    if item.lost {
        return Ok(());
    }
    socket.send(&item.packet)?;
    if acknowledged {
        return acknowledgement::wait(socket, &item.packet);
    }
    thread::sleep(PAUSE);
    Ok(())
}

/// The TCP connection to the receiver.
struct Connection {
    stream: TcpStream,
    random: Random,
    /// Whether the receiver closed it.
    closed: bool,
}

impl Connection {
    fn open(port: u16, seed: u64) -> Result<Self, String> {
        let stream = TcpStream::connect((Ipv4Addr::LOCALHOST, port))
            .and_then(|stream| stream.set_nodelay(true).map(|()| stream))
            .map_err(|fault| format!("cannot connect to TCP port {port}: {fault}"))?;
        line(format_args!("sender: connected to TCP port {port}"));
        Ok(Connection { stream, random: Random::with_seed(seed), closed: false })
    }

    /// Sends a part of the recording, which begins at `place`, in pieces.
    fn play(&mut self, part: &[u8], mut place: usize) {
        for piece in pieces(part, &mut self.random) {
            if self.closed {
                return;
            }
            match self.stream.write_all(piece) {
                Ok(()) => line(format_args!("recording: {} bytes from place {place}", piece.len())),
                Err(fault) => self.broke(&fault),
            }
            place += piece.len();
        }
    }

    /// Says that nothing more comes, and shows the receiver's answers. There are few of them, so
    /// that they wait in the connection until now.
    fn close(&mut self) {
        let mut answers = Vec::new();
        let rest = self.stream.shutdown(Shutdown::Write);
        if let Err(fault) = rest.and_then(|()| self.stream.read_to_end(&mut answers)) {
            self.broke(&fault);
        }
        let mut cutter = Cutter::default();
        cutter.put(&answers);
        while let Cut::Message(message) = cutter.cut() {
            line(format_args!("answer: {}", described(message)));
        }
        line("sender: the connection is closed");
    }

    fn broke(&mut self, fault: &io::Error) {
        if !self.closed {
            line(format_args!("sender: the receiver closed the connection: {fault}"));
        }
        self.closed = true;
    }
}
