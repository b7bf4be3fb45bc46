//! Packets of many flows, and Programs, by their bytes.
use crate::packet;

pub const ROWS: u16 = 8064;
pub const VIP: u32 = 0xc000_0200;
const CLIENT: u32 = 0xc633_6407;

/// What differs between the packets of two flows.
#[derive(Clone, Copy)]
pub struct Ends {
    pub low: u16,
    pub sport: u16,
    pub dport: u16,
}

fn put(bytes: &mut [u8], at: usize, word: u16) {
    bytes[at..at + 2].copy_from_slice(&word.to_be_bytes());
}

/// A TCP packet with ACK that fills the bytes.
pub fn fill(bytes: &mut [u8]) {
    for (i, byte) in bytes.iter_mut().enumerate() {
        *byte = (i % 251) as u8;
    }
    let total = bytes.len() as u16;
    bytes[..20].copy_from_slice(&[0x45, 0, 0, 0, 0xfd, 0xff, 0x40, 0, 64, 6, 0, 0, 0, 0, 0, 0, 0, 0, 0, 0]);
    put(bytes, 2, total);
    bytes[12..16].copy_from_slice(&CLIENT.to_be_bytes());
    bytes[16..20].copy_from_slice(&VIP.to_be_bytes());
    bytes[32] = 0x50;
    bytes[33] = 0x10;
    for at in [20, 22, 48, 50] {
        put(bytes, at, 0);
    }
    put(bytes, 52, 0xfdff);
    packet::set_sums(bytes);
}

/// Makes the packet one of this flow.
pub fn aim(bytes: &mut [u8], ends: Ends) {
    put(bytes, 4, 0xffff - ends.low);
    put(bytes, 18, ends.low);
    put(bytes, 20, ends.sport);
    put(bytes, 22, ends.dport);
    put(bytes, 48, 0xffff - ends.sport);
    put(bytes, 50, 0xffff - ends.dport);
    put(bytes, 52, 0xffff - ends.low);
}

/// A flow's ends: at a leased range of a VIP, or at port 80 of one.
pub fn ends_of(flow: u16, vips: u16, leased: bool) -> Ends {
    let sport = flow.wrapping_add(1024);
    if leased {
        let row = flow % ROWS;
        Ends { low: 0x0200 + row % vips, sport, dport: 1024 + row / vips * 8 + flow % 8 }
    } else {
        Ends { low: 0x0200 + flow % vips, sport, dport: 80 }
    }
}

/// So many flows, in an order that leaps.
pub fn all_ends(count: u32, vips: u16, leased: bool) -> Vec<Ends> {
    (0..count).map(|i| ends_of((i * 7919 % count) as u16, vips, leased)).collect()
}

/// A Program of lease `n`.
pub fn program(n: u16, low: u16, start: u16) -> [u8; 37] {
    let mut bytes = [0; 37];
    put(&mut bytes, 0, 0x0101);
    bytes[2] = 16;
    bytes[10] = 5;
    bytes[18] = 1;
    put(&mut bytes, 25, n);
    put(&mut bytes, 27, 0xc000);
    put(&mut bytes, 29, low);
    put(&mut bytes, 31, start);
    put(&mut bytes, 33, 0x0a01);
    put(&mut bytes, 35, low - 0x0200);
    bytes
}
