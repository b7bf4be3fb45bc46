//! Replays a plain schedule in ordinary Rust, as one writes it with no proof in mind: std's maps, panics on nothing, the
//! same lines out. `run` compares both programs' output and time.
use std::collections::{BTreeMap, BTreeSet, HashMap};
use std::fmt::Write as _;
use std::io::{self, Read, Write};
use std::net::Ipv4Addr;
use std::process::ExitCode;

#[path = "packet.rs"]
mod packet;

use packet::Key;

const MAX_LINES: usize = 100_000;
const MAX_VIPS: usize = 64;
const MAX_BYTES: usize = 65_507;

#[derive(Clone, Copy)]
struct Lease {
    vip: u32,
    start: u16,
    machine: u32,
}

#[derive(Clone, Copy)]
struct Connection {
    private: Key,
    public: Key,
    lease: u64,
}

#[derive(Clone, Copy, PartialEq, Eq, Hash)]
struct RemoteEnd {
    machine: u32,
    address: u32,
    port: u16,
    proto: u8,
}

#[derive(Default)]
struct State {
    slots: u64,
    /// The free starts of each VIP.
    free: HashMap<u32, BTreeSet<u16>>,
    /// The VIP of each machine that asked.
    machines: HashMap<u32, u32>,
    leases: BTreeMap<u64, Lease>,
    leases_of: HashMap<u32, BTreeSet<u64>>,
    by_private: HashMap<Key, Connection>,
    by_public: HashMap<Key, Connection>,
    /// Up to which lease a machine's ports are taken.
    full: HashMap<RemoteEnd, u64>,
    out: String,
}

struct BadLine;

fn number(text: &str, most: u64) -> Result<u64, BadLine> {
    let plain = !text.is_empty() && text.bytes().all(|b| b.is_ascii_digit()) && (text == "0" || !text.starts_with('0'));
    match text.parse() {
        Ok(n) if plain && n <= most => Ok(n),
        _ => Err(BadLine),
    }
}

fn address(text: &str) -> Result<u32, BadLine> {
    let address: Ipv4Addr = text.parse().map_err(|_| BadLine)?;
    Ok(address.to_bits())
}

fn digit(byte: u8) -> Result<u8, BadLine> {
    match byte {
        b'0'..=b'9' => Ok(byte - b'0'),
        b'a'..=b'f' => Ok(byte - b'a' + 10),
        b'A'..=b'F' => Ok(byte - b'A' + 10),
        _ => Err(BadLine),
    }
}

fn decode(text: &str) -> Result<Vec<u8>, BadLine> {
    let text = text.as_bytes();
    if text.len() % 2 != 0 || text.is_empty() || text.len() > 2 * MAX_BYTES {
        return Err(BadLine);
    }
    text.chunks_exact(2).map(|pair| Ok(digit(pair[0])? << 4 | digit(pair[1])?)).collect()
}

fn encode(out: &mut String, bytes: &[u8]) {
    const DIGITS: &[u8; 16] = b"0123456789abcdef";
    out.reserve(2 * bytes.len());
    for byte in bytes {
        out.push(char::from(DIGITS[usize::from(byte >> 4)]));
        out.push(char::from(DIGITS[usize::from(byte & 15)]));
    }
}

impl State {
    fn drop_packet(&mut self, cause: &str) {
        let _ = writeln!(self.out, "drop {cause}");
    }

    fn vip(&mut self, vip: &str, low: &str, high: &str) -> Result<(), BadLine> {
        let (vip, low, high) = (address(vip)?, number(low, 65535)?, number(high, 65535)?);
        let whole = low % 8 == 0 && low >= 1024 && (high + 1) % 8 == 0 && low < high;
        if !whole || self.free.contains_key(&vip) || self.machines.contains_key(&vip) || self.free.len() >= MAX_VIPS {
            return Err(BadLine);
        }
        self.free.insert(vip, (low..=high).step_by(8).map(|start| start as u16).collect());
        Ok(())
    }

    fn ask(&mut self, vip: &str, machine: &str) -> Result<(), BadLine> {
        let (vip, machine) = (address(vip)?, address(machine)?);
        if self.free.contains_key(&machine) || *self.machines.get(&machine).unwrap_or(&vip) != vip {
            return Err(BadLine);
        }
        let free = self.free.get_mut(&vip).ok_or(BadLine)?;
        self.machines.insert(machine, vip);
        let n = 16 * self.slots + 1;
        self.slots += 1;
        match free.pop_first() {
            Some(start) => {
                self.leases.insert(n, Lease { vip, start, machine });
                self.leases_of.entry(machine).or_default().insert(n);
                let _ = writeln!(self.out, "leased {n} {start}");
            }
            None => {
                let _ = writeln!(self.out, "exhausted {n}");
            }
        }
        Ok(())
    }

    fn give_back(&mut self, n: &str) -> Result<(), BadLine> {
        let n = number(n, u64::MAX)?;
        match self.leases.remove(&n) {
            Some(lease) => {
                self.slots += 1;
                self.free.entry(lease.vip).or_default().insert(lease.start);
                self.leases_of.entry(lease.machine).or_default().remove(&n);
                let _ = writeln!(self.out, "freed {n}");
            }
            None => {
                let _ = writeln!(self.out, "unknown {n}");
            }
        }
        Ok(())
    }

    fn standing(&self, found: Option<&Connection>) -> Option<Connection> {
        found.copied().filter(|connection| self.leases.contains_key(&connection.lease))
    }

    fn first_free(&mut self, key: Key) -> Option<Connection> {
        let end = RemoteEnd { machine: key.src, address: key.dst, port: key.dport, proto: key.proto };
        let mut full = self.full.get(&end).copied().unwrap_or(0);
        let mut found = None;
        if let Some(leases) = self.leases_of.get(&key.src) {
            for &n in leases.range(full + 1..) {
                let lease = self.leases[&n];
                found = (0..8)
                    .map(|i| Key { src: lease.vip, sport: lease.start + i, ..key })
                    .find(|public| self.standing(self.by_public.get(public)).is_none())
                    .map(|public| Connection { private: key, public, lease: n });
                if found.is_some() {
                    break;
                }
                full = n;
            }
        }
        self.full.insert(end, full);
        found
    }

    fn packet(&mut self, text: &str) -> Result<(), BadLine> {
        let mut bytes = decode(text)?;
        let (key, len) = match packet::read(&bytes) {
            Err(fault) => return Ok(self.drop_packet(fault)),
            Ok(read) => read,
        };
        if !self.machines.contains_key(&key.src) {
            return Ok(self.drop_packet("NotMine"));
        }
        let taken = match self.standing(self.by_private.get(&key)) {
            Some(connection) => Some(connection),
            None => self.first_free(key),
        };
        let Some(connection) = taken else {
            return Ok(self.drop_packet("NoLease"));
        };
        self.by_private.insert(key, connection);
        self.by_public.insert(connection.public, connection);
        let packet = &mut bytes[..len];
        packet::translate_source(packet, connection.public.src, connection.public.sport);
        self.out.push_str("public ");
        encode(&mut self.out, packet);
        self.out.push('\n');
        Ok(())
    }

    fn reply(&mut self, text: &str) -> Result<(), BadLine> {
        let mut bytes = decode(text)?;
        let (key, len) = match packet::read(&bytes) {
            Err(fault) => return Ok(self.drop_packet(fault)),
            Ok(read) => read,
        };
        if bytes[8] <= 1 {
            return Ok(self.drop_packet("TtlOut"));
        }
        let Some(connection) = self.standing(self.by_public.get(&key.reverse())) else {
            return Ok(self.drop_packet("NoConnection"));
        };
        let packet = &mut bytes[..len];
        let end = connection.private;
        packet::translate_destination(packet, end.src, end.sport, 1);
        let _ = write!(self.out, "machine {} ", Ipv4Addr::from_bits(end.src));
        encode(&mut self.out, packet);
        self.out.push('\n');
        Ok(())
    }

    fn line(&mut self, line: &str) -> Result<(), BadLine> {
        if line.is_empty() || line.starts_with('#') {
            return Ok(());
        }
        let mut fields = line.split(' ');
        let word = fields.next();
        match (word, fields.next(), fields.next(), fields.next(), fields.next()) {
            (Some("vip"), Some(vip), Some(low), Some(high), None) => self.vip(vip, low, high),
            (Some("ask"), Some(vip), Some(machine), None, None) => self.ask(vip, machine),
            (Some("return"), Some(n), None, None, None) => self.give_back(n),
            (Some("packet"), Some(text), None, None, None) => self.packet(text),
            (Some("reply"), Some(text), None, None, None) => self.reply(text),
            _ => Err(BadLine),
        }
    }
}

fn replay(text: &str) -> Result<String, usize> {
    let text = text.strip_suffix('\n').unwrap_or(text);
    let mut lines = text.split('\n');
    if lines.next() != Some("plain") {
        return Err(1);
    }
    let mut state = State::default();
    for (at, line) in lines.enumerate() {
        if at + 2 > MAX_LINES || state.line(line).is_err() {
            return Err(at + 2);
        }
    }
    Ok(state.out)
}

fn main() -> ExitCode {
    let mut text = Vec::new();
    if io::stdin().read_to_end(&mut text).is_err() {
        return ExitCode::from(6);
    }
    match replay(&String::from_utf8_lossy(&text)) {
        Ok(lines) => match io::stdout().write_all(lines.as_bytes()) {
            Ok(()) => ExitCode::SUCCESS,
            Err(_) => ExitCode::from(7),
        },
        Err(line) => {
            eprintln!("schedule line {line}");
            ExitCode::from(4)
        }
    }
}
