//! What nodes ask of packets beyond what plain schedules do: flags, the flow's hash, and packets in packets.
pub use crate::packet::{Key, read, read_header, set_header_sum, translate_destination, translate_source};

pub const TCP: u8 = 6;
const LONGEST: usize = 65_000;

const SYN: u8 = 2;
const RST: u8 = 4;
const ACK: u8 = 16;

fn flags(packet: &[u8]) -> u8 {
    let header = usize::from(packet[0] & 15) * 4;
    if packet[9] == TCP { packet[header + 13] } else { 0 }
}

/// A SYN without ACK.
pub fn is_first(packet: &[u8]) -> bool {
    flags(packet) & (SYN | ACK) == SYN
}

pub fn is_reset(packet: &[u8]) -> bool {
    flags(packet) & RST != 0
}

/// 32-bit FNV-1a over source, destination, source port, destination port and protocol.
pub fn hash(key: &Key) -> u32 {
    let mut bytes = [0; 13];
    bytes[..4].copy_from_slice(&key.src.to_be_bytes());
    bytes[4..8].copy_from_slice(&key.dst.to_be_bytes());
    bytes[8..10].copy_from_slice(&key.sport.to_be_bytes());
    bytes[10..12].copy_from_slice(&key.dport.to_be_bytes());
    bytes[12] = key.proto;
    bytes.iter().fold(2_166_136_261, |hash, byte| (hash ^ u32::from(*byte)).wrapping_mul(16_777_619))
}

/// The datagram with a packet frame around `packet` in a packet, RFC 2003; the inner one has `hops` less to live.
pub fn wrap(src: u32, dst: u32, packet: &[u8], hops: u8) -> Result<Vec<u8>, &'static str> {
    if packet.len() > LONGEST {
        return Err("TooLong");
    }
    if packet[8] <= hops {
        return Err("TtlOut");
    }
    let total = packet.len() as u16 + 20;
    let mut frame = Vec::with_capacity(21 + packet.len());
    frame.extend_from_slice(&[2, 0x45, packet[1]]);
    frame.extend_from_slice(&total.to_be_bytes());
    frame.extend_from_slice(&[0, 0, 0x40, 0, 64, 4, 0, 0]);
    frame.extend_from_slice(&src.to_be_bytes());
    frame.extend_from_slice(&dst.to_be_bytes());
    frame.extend_from_slice(packet);
    set_header_sum(&mut frame[1..21]);
    frame[29] -= hops;
    set_header_sum(&mut frame[21..]);
    Ok(frame)
}

pub struct Outer<'a> {
    pub src: u32,
    pub dst: u32,
    pub inner: &'a [u8],
}

/// What a packet in a packet holds, or the first fault of the outer header.
pub fn unwrap(packet: &[u8]) -> Result<Outer<'_>, &'static str> {
    let total = read_header(packet)?;
    if packet[9] != 4 {
        return Err("NotIpip");
    }
    let address = |at: usize| u32::from_be_bytes([packet[at], packet[at + 1], packet[at + 2], packet[at + 3]]);
    let header = usize::from(packet[0] & 15) * 4;
    Ok(Outer { src: address(12), dst: address(16), inner: &packet[header..total] })
}
