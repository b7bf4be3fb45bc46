//! The same work as `measure.txt` in plain Rust, as one writes it with no proof in mind.
use std::hint::black_box;
use std::time::Instant;

const TURNS: u64 = 2_000_000;

fn words(bytes: &[u8]) -> u64 {
    let mut sum = 0u64;
    let mut chunks = bytes.chunks_exact(4);
    for chunk in &mut chunks {
        sum += u64::from(u32::from_be_bytes([chunk[0], chunk[1], chunk[2], chunk[3]]));
    }
    let mut last = [0; 4];
    let rest = chunks.remainder();
    last[..rest.len()].copy_from_slice(rest);
    sum + u64::from(u32::from_be_bytes(last))
}

fn fold(mut sum: u64) -> u16 {
    while sum >> 16 != 0 {
        sum = (sum & 0xffff) + (sum >> 16);
    }
    sum as u16
}

fn word(bytes: &[u8], at: usize) -> u16 {
    u16::from_be_bytes([bytes[at], bytes[at + 1]])
}

fn address(bytes: &[u8], at: usize) -> u32 {
    u32::from_be_bytes(bytes[at..at + 4].try_into().unwrap())
}

fn put(bytes: &mut [u8], at: usize, word: u16) {
    bytes[at..at + 2].copy_from_slice(&word.to_be_bytes());
}

#[derive(Debug)]
enum Fault {
    Short,
    Version,
    HeaderLength,
    TotalLength,
    HeaderSum,
    Fragment,
    NotTransport,
    Segment,
    Sum,
}

struct Packet<'a> {
    src: u32,
    dst: u32,
    sport: u16,
    dport: u16,
    whole: &'a [u8],
}

fn pseudo(src: u32, dst: u32, proto: u8, len: usize) -> u64 {
    let address = |ip: u32| u64::from(ip >> 16) + u64::from(ip & 0xffff);
    address(src) + address(dst) + u64::from(proto) + len as u64
}

fn read(bytes: &[u8]) -> Result<Packet<'_>, Fault> {
    if bytes.len() < 20 {
        return Err(Fault::Short);
    }
    if bytes[0] >> 4 != 4 {
        return Err(Fault::Version);
    }
    let header = usize::from(bytes[0] & 15) * 4;
    if header < 20 {
        return Err(Fault::HeaderLength);
    }
    let total = usize::from(word(bytes, 2));
    if total < header || bytes.len() < total {
        return Err(Fault::TotalLength);
    }
    if fold(words(&bytes[..header])) != 0xffff {
        return Err(Fault::HeaderSum);
    }
    if word(bytes, 6) & 0x3fff != 0 {
        return Err(Fault::Fragment);
    }
    let (src, dst) = (address(bytes, 12), address(bytes, 16));
    let mut segment = &bytes[header..total];
    let summed = match bytes[9] {
        6 => {
            if segment.len() < 20 || usize::from(segment[12] >> 4) < 5 || usize::from(segment[12] >> 4) * 4 > segment.len() {
                return Err(Fault::Segment);
            }
            true
        }
        17 => {
            if segment.len() < 8 {
                return Err(Fault::Segment);
            }
            let len = usize::from(word(segment, 4));
            if len < 8 || len > segment.len() {
                return Err(Fault::Segment);
            }
            segment = &segment[..len];
            word(segment, 6) != 0
        }
        _ => return Err(Fault::NotTransport),
    };
    if summed && fold(pseudo(src, dst, bytes[9], segment.len()) + words(segment)) != 0xffff {
        return Err(Fault::Sum);
    }
    Ok(Packet { src, dst, sport: word(segment, 0), dport: word(segment, 2), whole: &bytes[..total] })
}

fn sums(bytes: &mut [u8]) {
    let header = usize::from(bytes[0] & 15) * 4;
    put(bytes, 10, 0);
    let sum = !fold(words(&bytes[..header]));
    put(bytes, 10, sum);
    let (at, end) = match bytes[9] {
        6 => (header + 16, usize::from(word(bytes, 2))),
        _ => (header + 6, header + usize::from(word(bytes, header + 4))),
    };
    if bytes[9] == 17 && word(bytes, at) == 0 {
        return;
    }
    put(bytes, at, 0);
    let (src, dst) = (address(bytes, 12), address(bytes, 16));
    let mut sum = !fold(pseudo(src, dst, bytes[9], end - header) + words(&bytes[header..end]));
    if bytes[9] == 17 && sum == 0 {
        sum = 0xffff;
    }
    put(bytes, at, sum);
}

fn clamp(bytes: &mut [u8]) {
    let header = usize::from(bytes[0] & 15) * 4;
    if bytes[9] != 6 || bytes[header + 13] & 2 == 0 {
        return;
    }
    let end = header + usize::from(bytes[header + 12] >> 4) * 4;
    let mut at = header + 20;
    while at < end && bytes[at] != 0 {
        if bytes[at] == 1 {
            at += 1;
            continue;
        }
        if at + 1 >= end || bytes[at + 1] < 2 || at + usize::from(bytes[at + 1]) > end {
            return;
        }
        if bytes[at] == 2 && bytes[at + 1] == 4 {
            if word(bytes, at + 2) > 1440 {
                put(bytes, at + 2, 1440);
            }
            return;
        }
        at += usize::from(bytes[at + 1]);
    }
}

fn translate_source(bytes: &mut [u8], ip: u32, port: u16) {
    let header = usize::from(bytes[0] & 15) * 4;
    clamp(bytes);
    bytes[12..16].copy_from_slice(&ip.to_be_bytes());
    put(bytes, header, port);
    sums(bytes);
}

fn fill(bytes: &mut [u8]) {
    let total = bytes.len() as u16;
    for (i, byte) in bytes.iter_mut().enumerate() {
        *byte = (i % 251) as u8;
    }
    bytes[..20].copy_from_slice(&[0x45, 0, 0, 0, 0, 1, 0x40, 0, 64, 17, 0, 0, 10, 1, 0, 4, 198, 51, 100, 7]);
    put(bytes, 2, total);
    put(bytes, 20, 5000);
    put(bytes, 22, 53);
    put(bytes, 24, total - 20);
    put(bytes, 26, 1);
    sums(bytes);
}

fn exchange(bytes: &mut [u8]) {
    bytes.swap(40, 50);
    bytes.swap(41, 51);
}

fn main() {
    for size in [64, 1400] {
        for name in ["copy", "sum", "read", "translate"] {
            let mut bytes = vec![0; size];
            let mut out = vec![0; size];
            fill(&mut bytes);
            let mut check = 0u64;
            let clock = Instant::now();
            for turn in 0..TURNS {
                exchange(&mut bytes);
                match name {
                    "copy" => {
                        out.copy_from_slice(black_box(&bytes));
                        check += u64::from(out[40]);
                    }
                    "sum" => check += u64::from(fold(words(black_box(&bytes)))),
                    "read" => {
                        let packet = read(black_box(&bytes)).unwrap();
                        black_box((packet.src, packet.dst, packet.dport, packet.whole.len()));
                        check += u64::from(packet.sport);
                    }
                    _ => {
                        let sport = read(black_box(&bytes)).unwrap().sport;
                        translate_source(&mut bytes, 0xc000_020a, (turn % 60000) as u16);
                        out.copy_from_slice(&bytes);
                        check += u64::from(sport);
                    }
                }
            }
            let tenths = clock.elapsed().as_nanos() / 200_000;
            println!("plain {size} {name} {}.{} {check}", tenths / 10, tenths % 10);
        }
    }
}
