//! Acknowledgements of cursor packets.
//!
//! They belong to the two sample programs alone and are **no part of the protocol**, in which
//! nobody answers a cursor packet. With them the sender waits, after each packet that it sends,
//! until the receiver took it and printed its line. So no packet is lost by accident, however slow
//! the machine is, and the receiver's lines are those of the packets sent, in the same order. A
//! packet that is to be lost is not sent.

use std::io;
use std::net::{SocketAddr, UdpSocket};
use std::time::{Duration, Instant};

use crate::checksum::Checksum;

/// How long the sender waits. There is no second try: on the loopback interface a single packet
/// under way is not lost, so that a missing acknowledgement means that nobody acknowledges.
const PATIENCE: Duration = Duration::from_secs(30);

/// Acknowledges a packet: sends its checksum to where it came from.
pub fn send(socket: &UdpSocket, packet: &[u8], to: SocketAddr) -> io::Result<()> {
    socket.send_to(&Checksum::of(packet).to_bytes(), to).map(|_| ())
}

/// Waits for the acknowledgement of a packet on a connected socket.
pub fn wait(socket: &UdpSocket, packet: &[u8]) -> io::Result<()> {
    let expected = Checksum::of(packet).to_bytes();
    let end = Instant::now() + PATIENCE;
    loop {
        let left = end.saturating_duration_since(Instant::now());
        if left.is_zero() {
            let fault = "no acknowledgement; the receiver is to be started with --acknowledge too";
            return Err(io::Error::new(io::ErrorKind::TimedOut, fault));
        }
        socket.set_read_timeout(Some(left))?;
        let mut received = [0; 9];
        match socket.recv(&mut received) {
            Ok(length) if received[..length] == expected => return Ok(()),
            Ok(_) => {}
            Err(fault) if is_nothing_yet(&fault) => {}
            Err(fault) => return Err(fault),
        }
    }
}

/// Whether a socket's fault only says that nothing came in the time given.
pub fn is_nothing_yet(fault: &io::Error) -> bool {
    use io::ErrorKind::{Interrupted, TimedOut, WouldBlock};
    matches!(fault.kind(), Interrupted | TimedOut | WouldBlock)
}

#[cfg(test)]
mod tests {
    use super::*;

    #[test]
    fn waits_for_that_packet() {
        let receiver = UdpSocket::bind("127.0.0.1:0").unwrap();
        let sender = UdpSocket::bind("127.0.0.1:0").unwrap();
        sender.connect(receiver.local_addr().unwrap()).unwrap();
        let to = sender.local_addr().unwrap();
        send(&receiver, b"another", to).unwrap();
        receiver.send_to(&[], to).unwrap();
        send(&receiver, b"packet", to).unwrap();
        wait(&sender, b"packet").unwrap();
    }
}
