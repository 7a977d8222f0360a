//! Cursor packets, made from their fields (003 sections 2.2 to 2.2.3).

/// A packet: RTP header with timestamp and SSRC 0, MsgType, PacketMsgSize and what follows them.
fn packet(sequence: u16, kind: u8, fields: &[&[u8]]) -> Vec<u8> {
    let body = fields.concat();
    let size = body.len() as u16 + 3;
    let mut bytes = vec![0x80, 0];
    bytes.extend(sequence.to_be_bytes());
    bytes.extend([0; 8]);
    bytes.push(kind);
    bytes.extend(size.to_be_bytes());
    bytes.extend(body);
    bytes
}

/// The packet with these eight bytes for timestamp and SSRC, as far as it has them.
pub fn with_unused(mut packet: Vec<u8>, unused: &[u8]) -> Vec<u8> {
    packet.iter_mut().skip(4).zip(unused).for_each(|(byte, unused)| *byte = *unused);
    packet
}

pub fn position(sequence: u16, x: i16, y: i16) -> Vec<u8> {
    packet(sequence, 1, &[&x.to_be_bytes(), &y.to_be_bytes()])
}

/// The position and the own fields of a start: x, y, image type, hot spot.
pub struct Start(pub i16, pub i16, pub u8, pub u16, pub u16);

pub fn start(sequence: u16, total: u32, id: u16, own: Start, data: &[u8]) -> Vec<u8> {
    let Start(x, y, image_type, hot_x, hot_y) = own;
    packet(
        sequence,
        2,
        &[
            &total.to_be_bytes(),
            &id.to_be_bytes(),
            &x.to_be_bytes(),
            &y.to_be_bytes(),
            &[image_type],
            &hot_x.to_be_bytes(),
            &hot_y.to_be_bytes(),
            data,
        ],
    )
}

pub fn continuation(sequence: u16, total: u32, id: u16, offset: i32, data: &[u8]) -> Vec<u8> {
    packet(sequence, 3, &[&total.to_be_bytes(), &id.to_be_bytes(), &offset.to_be_bytes(), data])
}
