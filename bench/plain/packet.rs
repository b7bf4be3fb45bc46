//! Packets in ordinary Rust: the first fault or the five numbers, and both translations.

#[derive(Clone, Copy, PartialEq, Eq, Hash)]
pub struct Key {
    pub src: u32,
    pub dst: u32,
    pub sport: u16,
    pub dport: u16,
    pub proto: u8,
}

impl Key {
    pub fn reverse(self) -> Key {
        Key { src: self.dst, dst: self.src, sport: self.dport, dport: self.sport, proto: self.proto }
    }
}

fn words(bytes: &[u8]) -> u64 {
    let mut chunks = bytes.chunks_exact(4);
    let mut sum = 0u64;
    for chunk in &mut chunks {
        sum += u64::from(u32::from_be_bytes([chunk[0], chunk[1], chunk[2], chunk[3]]));
    }
    let mut last = [0; 4];
    let rest = chunks.remainder();
    last[..rest.len()].copy_from_slice(rest);
    sum + u64::from(u32::from_be_bytes(last))
}

fn fold(mut sum: u64) -> u16 {
    while sum >> 16 != 0 {
        sum = (sum & 0xffff) + (sum >> 16);
    }
    sum as u16
}

fn word(bytes: &[u8], at: usize) -> u16 {
    u16::from_be_bytes([bytes[at], bytes[at + 1]])
}

fn address(bytes: &[u8], at: usize) -> u32 {
    u32::from_be_bytes([bytes[at], bytes[at + 1], bytes[at + 2], bytes[at + 3]])
}

fn put(bytes: &mut [u8], at: usize, word: u16) {
    bytes[at..at + 2].copy_from_slice(&word.to_be_bytes());
}

fn header_len(bytes: &[u8]) -> usize {
    usize::from(bytes[0] & 15) * 4
}

fn pseudo(src: u32, dst: u32, proto: u8, len: usize) -> u64 {
    let halves = |ip: u32| u64::from(ip >> 16) + u64::from(ip & 0xffff);
    halves(src) + halves(dst) + u64::from(proto) + len as u64
}

/// The total length, or the header's first fault.
pub fn read_header(bytes: &[u8]) -> Result<usize, &'static str> {
    if bytes.len() < 20 {
        return Err("IpShort");
    }
    if bytes[0] >> 4 != 4 {
        return Err("IpVersion");
    }
    let header = header_len(bytes);
    if header < 20 {
        return Err("IpHeaderLength");
    }
    let total = usize::from(word(bytes, 2));
    if total < header || bytes.len() < total {
        return Err("IpTotalLength");
    }
    if fold(words(&bytes[..header])) != 0xffff {
        return Err("IpHeaderSum");
    }
    if word(bytes, 6) & 0x3fff != 0 {
        return Err("Fragment");
    }
    Ok(total)
}

/// The five numbers and the total length, or the packet's first fault.
pub fn read(bytes: &[u8]) -> Result<(Key, usize), &'static str> {
    let total = read_header(bytes)?;
    let header = header_len(bytes);
    let (src, dst, proto) = (address(bytes, 12), address(bytes, 16), bytes[9]);
    let mut segment = &bytes[header..total];
    let mut summed = true;
    match proto {
        6 => {
            if segment.len() < 20 {
                return Err("SegShort");
            }
            let offset = usize::from(segment[12] >> 4) * 4;
            if offset < 20 || offset > segment.len() {
                return Err("DataOffset");
            }
        }
        17 => {
            if segment.len() < 8 {
                return Err("SegShort");
            }
            let len = usize::from(word(segment, 4));
            if len < 8 || len > segment.len() {
                return Err("SegLength");
            }
            segment = &segment[..len];
            summed = word(segment, 6) != 0;
        }
        _ => return Err("NotTransport"),
    }
    if summed && fold(pseudo(src, dst, proto, segment.len()) + words(segment)) != 0xffff {
        return Err("BadSum");
    }
    Ok((Key { src, dst, sport: word(segment, 0), dport: word(segment, 2), proto }, total))
}

pub fn set_header_sum(bytes: &mut [u8]) {
    let header = header_len(bytes);
    put(bytes, 10, 0);
    let sum = !fold(words(&bytes[..header]));
    put(bytes, 10, sum);
}

pub fn set_sums(bytes: &mut [u8]) {
    let header = header_len(bytes);
    set_header_sum(bytes);
    let udp = bytes[9] == 17;
    let (at, end) = match udp {
        false => (header + 16, usize::from(word(bytes, 2))),
        true => (header + 6, header + usize::from(word(bytes, header + 4))),
    };
    if udp && word(bytes, at) == 0 {
        return;
    }
    put(bytes, at, 0);
    let whole = pseudo(address(bytes, 12), address(bytes, 16), bytes[9], end - header) + words(&bytes[header..end]);
    let sum = !fold(whole);
    put(bytes, at, if udp && sum == 0 { 0xffff } else { sum });
}

/// Lowers the maximum segment size of a SYN to 1440.
fn clamp(bytes: &mut [u8]) {
    let header = header_len(bytes);
    if bytes[9] != 6 || bytes[header + 13] & 2 == 0 {
        return;
    }
    let end = header + usize::from(bytes[header + 12] >> 4) * 4;
    let mut at = header + 20;
    while at < end && bytes[at] != 0 {
        if bytes[at] == 1 {
            at += 1;
            continue;
        }
        if at + 1 >= end || bytes[at + 1] < 2 || at + usize::from(bytes[at + 1]) > end {
            return;
        }
        if bytes[at] == 2 && bytes[at + 1] == 4 {
            if word(bytes, at + 2) > 1440 {
                put(bytes, at + 2, 1440);
            }
            return;
        }
        at += usize::from(bytes[at + 1]);
    }
}

pub fn translate_source(bytes: &mut [u8], ip: u32, port: u16) {
    let header = header_len(bytes);
    clamp(bytes);
    bytes[12..16].copy_from_slice(&ip.to_be_bytes());
    put(bytes, header, port);
    set_sums(bytes);
}

pub fn translate_destination(bytes: &mut [u8], ip: u32, port: u16, hops: u8) {
    let header = header_len(bytes);
    clamp(bytes);
    bytes[8] -= hops;
    bytes[16..20].copy_from_slice(&ip.to_be_bytes());
    put(bytes, header + 2, port);
    set_sums(bytes);
}
