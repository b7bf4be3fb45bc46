//! The job of the proved program in plain Rust: an agent whose tables are the standard library's maps.
#[path = "../plain/packet.rs"]
#[allow(dead_code)]
mod packet;
#[path = "../plain/maps.rs"]
#[allow(dead_code, unused_imports)]
mod maps;
#[path = "../plain/processor.rs"]
mod processor;

use packet::Key;
use maps::{HashMap, HashSet, WHO};
use std::collections::{BTreeMap, VecDeque};
use std::hint::black_box;

const PACKETS: u32 = 60_000;
const TIMES: u32 = 10;
const EXTRA: u16 = 1000;
const ROUNDS: u32 = 130;
const MACHINE: u32 = 0x0a01_0004;
const VIP: u32 = 0xc000_020a;
const REMOTE: u32 = 0xc633_6407;
const MUX: u32 = 0x0a09_0001;
const ACK: u8 = 0x10;
const RST: u8 = 0x14;
const MOST: usize = 65_536;
const FLOW_IDLE: u64 = 60_000;
const RANGE_IDLE: u64 = 30_000;

type Socket = (u32, u16);

#[derive(Clone, Copy)]
enum Who {
    Replica(u8),
    Mux(u32),
    Machine(u32),
    Agent,
}

#[allow(dead_code)]
enum Cause {
    BadFrame,
    BadMessage,
    WrongRole,
    NotMine,
    BadSource,
    BadSender,
    Packet,
    NotIpip,
    NoSnat,
    TableFull,
    QueueFull,
    NoConnection,
    WrongMachine,
    WrongBoot(u64),
    OldGrant(u64),
    Late,
}

#[derive(Clone, Copy)]
struct Connection {
    vip: u32,
    proto: u8,
    port: u16,
    remote: u32,
    rport: u16,
    machine: u32,
    sport: u16,
    n: u64,
    last: u64,
}

impl Connection {
    fn private(&self) -> Key {
        Key { src: self.machine, dst: self.remote, sport: self.sport, dport: self.rport, proto: self.proto }
    }

    fn public(&self) -> Key {
        Key { src: self.vip, dst: self.remote, sport: self.port, dport: self.rport, proto: self.proto }
    }

    fn end(&self) -> End {
        End { machine: self.machine, vip: self.vip, remote: self.remote, rport: self.rport, proto: self.proto }
    }
}

/// Connections in the order of opening, found by both keys.
#[derive(Default)]
struct Connections {
    slots: Vec<Option<Connection>>,
    live: usize,
    private: HashMap<Key, u32>,
    public: HashMap<Key, u32>,
    /// No connection was used before this time.
    oldest: u64,
}

impl Connections {
    fn open(&mut self, c: Connection) {
        if self.slots.len() >= 2 * self.live + 64 {
            let slots = std::mem::take(&mut self.slots);
            self.private.clear();
            self.public.clear();
            self.live = 0;
            slots.into_iter().flatten().for_each(|c| self.add(c));
        }
        self.add(c);
    }

    fn add(&mut self, c: Connection) {
        let at = self.slots.len() as u32;
        self.private.insert(c.private(), at);
        self.public.insert(c.public(), at);
        self.slots.push(Some(c));
        self.live += 1;
    }

    fn take(&mut self, at: u32) -> Option<Connection> {
        let c = self.slots[at as usize].take()?;
        self.private.remove(&c.private());
        self.public.remove(&c.public());
        self.live -= 1;
        Some(c)
    }

    fn idle(&mut self, now: u64) -> Vec<Connection> {
        let mut closed = Vec::new();
        if now - self.oldest < FLOW_IDLE {
            return closed;
        }
        self.oldest = now;
        for at in 0..self.slots.len() as u32 {
            match self.slots[at as usize] {
                Some(c) if now - c.last >= FLOW_IDLE => closed.extend(self.take(at)),
                Some(c) => self.oldest = self.oldest.min(c.last),
                None => {}
            }
        }
        closed
    }
}

#[derive(Clone, Copy, PartialEq, Eq, Hash)]
struct End {
    machine: u32,
    vip: u32,
    remote: u32,
    rport: u16,
    proto: u8,
}

struct Held {
    range: (u32, u16),
    machine: u32,
    idle: u64,
    count: u32,
}

struct Host {
    queue: VecDeque<Vec<u8>>,
    seq: u64,
    ask: Option<(u64, u64)>,
}

#[allow(dead_code)]
enum Act {
    Hold(u64),
    Drop(u64),
    Open(Connection),
    Close(Connection),
    Hand(u32, Vec<u8>),
}

#[allow(dead_code)]
enum Note {
    Queued(u32, usize),
    Dropped(Cause),
}

#[derive(Default)]
struct Step {
    acts: Vec<Act>,
    notes: Vec<Note>,
    sends: Vec<(Socket, Vec<u8>)>,
}

struct Agent {
    who: HashMap<Socket, Who>,
    attach: HashMap<u32, Socket>,
    snat: HashMap<u32, u32>,
    replicas: Vec<Socket>,
    router: Socket,
    boot: u64,
    known: bool,
    hint: u8,
    time: u64,
    hosts: HashMap<u32, Host>,
    held: BTreeMap<u64, Held>,
    held_ranges: HashSet<(u32, u16)>,
    by_machine: HashMap<u32, Vec<(u64, u16)>>,
    kept: HashMap<(u32, u16), u64>,
    returning: Vec<u64>,
    conns: Connections,
    /// The place among the machine's ranges before which none has a free port for this end.
    full: HashMap<End, usize>,
}

fn message(kind: u8, fields: &[&[u8]]) -> Vec<u8> {
    let mut bytes = vec![1, 1, kind];
    fields.iter().for_each(|field| bytes.extend_from_slice(field));
    bytes
}

impl Agent {
    fn new() -> Agent {
        let replicas: Vec<Socket> = (1..=5).map(|i| (0x0a00_0000 + i, 7000)).collect();
        let mut who: HashMap<Socket, Who> = (0..5).map(|i| (replicas[i as usize], Who::Replica(i))).collect();
        who.insert((MUX, 7000), Who::Mux(MUX));
        who.insert((0x0a08_0001, 7000), Who::Agent);
        who.insert((MACHINE, 9000), Who::Machine(MACHINE));
        Agent {
            who,
            attach: [(MACHINE, (MACHINE, 9000))].into_iter().collect(),
            snat: [(MACHINE, VIP)].into_iter().collect(),
            replicas,
            router: (0x0a07_0001, 7000),
            boot: 1,
            known: false,
            hint: 0,
            time: 0,
            hosts: [(MACHINE, Host { queue: VecDeque::new(), seq: 0, ask: None })].into_iter().collect(),
            held: BTreeMap::new(),
            held_ranges: HashSet::default(),
            by_machine: HashMap::default(),
            kept: HashMap::default(),
            returning: Vec::new(),
            conns: Connections::default(),
            full: HashMap::default(),
        }
    }

    fn choose(&mut self, key: &Key, vip: u32) -> Option<(u64, u16)> {
        let end = End { machine: key.src, vip, remote: key.dst, rport: key.dport, proto: key.proto };
        let ranges = self.by_machine.get(&key.src)?;
        let from = self.full.get(&end).copied().unwrap_or(0);
        for (at, &(n, start)) in ranges.iter().enumerate().skip(from) {
            for port in start..=start + 7 {
                let public = Key { src: vip, dst: key.dst, sport: port, dport: key.dport, proto: key.proto };
                if !self.conns.public.contains_key(&public) {
                    if at > from {
                        self.full.insert(end, at);
                    }
                    return Some((n, port));
                }
            }
        }
        if ranges.len() > from {
            self.full.insert(end, ranges.len());
        }
        None
    }

    fn closed(&mut self, c: &Connection) {
        if let Some(held) = self.held.get_mut(&c.n) {
            held.count -= 1;
            held.idle = self.time;
        }
        if let Some(full) = self.full.get_mut(&c.end()) {
            let ranges = self.by_machine.get(&c.machine).map_or(&[][..], |ranges| ranges);
            *full = (*full).min(ranges.partition_point(|(n, _)| *n < c.n));
            if *full == 0 {
                self.full.remove(&c.end());
            }
        }
    }

    fn leave(&self, step: &mut Step, c: &Connection, packet: &[u8]) {
        let mut bytes = Vec::with_capacity(packet.len() + 1);
        bytes.push(2);
        bytes.extend_from_slice(packet);
        packet::translate_source(&mut bytes[1..], c.vip, c.port);
        step.sends.push((self.router, bytes));
    }

    fn close_after(&mut self, step: &mut Step, at: u32, packet: &[u8]) {
        if packet[9] == 6 && packet[usize::from(packet[0] & 15) * 4 + 13] & 4 != 0 {
            if let Some(c) = self.conns.take(at) {
                self.closed(&c);
                step.acts.push(Act::Close(c));
            }
        }
    }

    fn used(&mut self, step: &mut Step, at: u32, packet: &[u8]) {
        let c = self.conns.slots[at as usize].as_mut().unwrap();
        c.last = self.time;
        let c = *c;
        self.leave(step, &c, packet);
        self.close_after(step, at, packet);
    }

    fn from_machine(&mut self, step: &mut Step, machine: u32, bytes: &[u8]) -> Result<(), Cause> {
        let (key, total) = packet::read(bytes).map_err(|_| Cause::Packet)?;
        let packet = &bytes[..total];
        if key.src != machine {
            return Err(Cause::BadSource);
        }
        if let Some(&at) = self.conns.private.get(&key) {
            self.used(step, at, packet);
            return Ok(());
        }
        let vip = *self.snat.get(&machine).ok_or(Cause::NoSnat)?;
        if self.conns.live >= MOST {
            return Err(Cause::TableFull);
        }
        if let Some((n, port)) = self.choose(&key, vip) {
            let c = Connection {
                vip,
                proto: key.proto,
                port,
                remote: key.dst,
                rport: key.dport,
                machine,
                sport: key.sport,
                n,
                last: self.time,
            };
            self.conns.open(c);
            self.held.get_mut(&n).unwrap().count += 1;
            step.acts.push(Act::Open(c));
            self.used(step, self.conns.slots.len() as u32 - 1, packet);
            return Ok(());
        }
        let host = self.hosts.get_mut(&machine).unwrap();
        if host.queue.len() >= 64 {
            return Err(Cause::QueueFull);
        }
        host.queue.push_back(packet.to_vec());
        step.notes.push(Note::Queued(machine, host.queue.len()));
        if host.ask.is_none() {
            host.seq += 1;
            host.ask = Some((host.seq, self.time));
            let ask = message(8, &[&self.boot.to_be_bytes(), &machine.to_be_bytes(), &host.seq.to_be_bytes()]);
            step.sends.push((self.replicas[usize::from(self.hint)], ask));
        }
        Ok(())
    }

    fn from_mux(&mut self, step: &mut Step, mux: u32, bytes: &[u8]) -> Result<(), Cause> {
        let total = packet::read_header(bytes).map_err(|_| Cause::Packet)?;
        if bytes[9] != 4 {
            return Err(Cause::NotIpip);
        }
        let address = |at: usize| u32::from_be_bytes(bytes[at..at + 4].try_into().unwrap());
        let (src, machine) = (address(12), address(16));
        if !self.hosts.contains_key(&machine) {
            return Err(Cause::NotMine);
        }
        if src != mux {
            return Err(Cause::BadSender);
        }
        let inner = &bytes[usize::from(bytes[0] & 15) * 4..total];
        let (key, total) = packet::read(inner).map_err(|_| Cause::Packet)?;
        let packet = &inner[..total];
        let Some(&at) = self.conns.public.get(&key.reverse()) else {
            return Err(Cause::NoConnection);
        };
        let c = self.conns.slots[at as usize].as_mut().unwrap();
        if c.machine != machine {
            return Err(Cause::WrongMachine);
        }
        c.last = self.time;
        let c = *c;
        let mut bytes = Vec::with_capacity(packet.len() + 1);
        bytes.push(2);
        bytes.extend_from_slice(packet);
        packet::translate_destination(&mut bytes[1..], c.machine, c.sport, 0);
        step.acts.push(Act::Hand(machine, bytes[1..].to_vec()));
        step.sends.push((self.attach[&machine], bytes));
        self.close_after(step, at, packet);
        Ok(())
    }

    fn granted(&mut self, step: &mut Step, from: u8, fields: &[u8]) -> Result<(), Cause> {
        let number = |at: usize| u64::from_be_bytes(fields[at..at + 8].try_into().unwrap());
        let address = |at: usize| u32::from_be_bytes(fields[at..at + 4].try_into().unwrap());
        let (boot, machine, seq, n, vip) = (number(0), address(8), number(12), number(20), address(28));
        let start = u16::from_be_bytes(fields[32..34].try_into().unwrap());
        if boot != self.boot {
            return Err(Cause::WrongBoot(self.boot));
        }
        if self.snat.get(&machine) != Some(&vip) || start % 8 != 0 || start < 1024 {
            return Err(Cause::NotMine);
        }
        let kept = self.kept.get(&(vip, start)).copied().unwrap_or(0);
        let clashes = self.held.contains_key(&n) || self.held_ranges.contains(&(vip, start));
        if clashes || self.returning.contains(&n) || n <= kept {
            return Err(Cause::OldGrant(kept));
        }
        self.held.insert(n, Held { range: (vip, start), machine, idle: self.time, count: 0 });
        self.held_ranges.insert((vip, start));
        self.kept.insert((vip, start), n);
        let ranges = self.by_machine.entry(machine).or_default();
        let at = ranges.partition_point(|(m, _)| *m < n);
        if at < ranges.len() {
            self.full.clear();
        }
        ranges.insert(at, (n, start));
        step.acts.push(Act::Hold(n));
        self.hint = from;
        let host = self.hosts.get_mut(&machine).unwrap();
        if host.ask.is_some_and(|(asked, _)| asked == seq) {
            host.ask = None;
        }
        let waiting = std::mem::take(&mut host.queue);
        for packet in waiting {
            if let Err(cause) = self.from_machine(step, machine, &packet) {
                step.notes.push(Note::Dropped(cause));
            }
        }
        Ok(())
    }

    fn told(&mut self, step: &mut Step, from: u8, message: &[u8]) -> Result<(), Cause> {
        match message {
            [1, 9, fields @ ..] if fields.len() == 34 => self.granted(step, from, fields),
            [1, 14, fields @ ..] if fields.len() == 8 => {
                if fields != self.boot.to_be_bytes() {
                    return Err(Cause::WrongBoot(self.boot));
                }
                self.known = true;
                self.hint = from;
                Ok(())
            }
            [1, 1..=23, ..] => Err(Cause::WrongRole),
            _ => Err(Cause::BadMessage),
        }
    }

    fn take(&mut self, step: &mut Step, from: Socket, bytes: &[u8]) -> Result<(), Cause> {
        let who = self.who.get(&from).copied();
        match (bytes.split_first(), who) {
            (Some((1, message)), Some(Who::Replica(i))) => self.told(step, i, message),
            (Some((1, _)), _) => Err(Cause::WrongRole),
            (Some((2, packet)), Some(Who::Machine(machine))) => self.from_machine(step, machine, packet),
            (Some((2, packet)), Some(Who::Mux(mux))) => self.from_mux(step, mux, packet),
            (Some((2, _)), _) => Err(Cause::NotMine),
            _ => Err(Cause::BadFrame),
        }
    }

    fn handle(&mut self, from: Socket, bytes: &[u8]) -> Step {
        let mut step = Step::default();
        if let Err(cause) = self.take(&mut step, from, bytes) {
            step.notes.push(Note::Dropped(cause));
        }
        step
    }

    fn tick(&mut self, now: u64) -> Step {
        let mut step = Step::default();
        self.time = self.time.max(now);
        for c in self.conns.idle(self.time) {
            self.closed(&c);
            step.acts.push(Act::Close(c));
        }
        let busy = |machine| self.hosts.get(&machine).is_some_and(|host| !host.queue.is_empty());
        let idle = |held: &Held| held.count == 0 && self.time - held.idle >= RANGE_IDLE && !busy(held.machine);
        let leaving: Vec<u64> = self.held.iter().filter(|(_, held)| idle(held)).map(|(n, _)| *n).collect();
        for n in leaving {
            let held = self.held.remove(&n).unwrap();
            self.held_ranges.remove(&held.range);
            self.by_machine.get_mut(&held.machine).unwrap().retain(|(m, _)| *m != n);
            self.full.clear();
            self.returning.push(n);
            step.acts.push(Act::Drop(n));
        }
        for &replica in &self.replicas {
            if !self.known {
                step.sends.push((replica, message(13, &[&self.boot.to_be_bytes()])));
            }
            for n in self.returning.iter().take(64) {
                step.sends.push((replica, message(11, &[&self.boot.to_be_bytes(), &n.to_be_bytes()])));
            }
        }
        step
    }
}

#[derive(Clone, Copy)]
struct Ends {
    sport: u16,
    dport: u16,
}

fn put(bytes: &mut [u8], at: usize, word: u16) {
    bytes[at..at + 2].copy_from_slice(&word.to_be_bytes());
}

fn fill(bytes: &mut [u8], src: u32, dst: u32, flags: u8) {
    for (i, byte) in bytes.iter_mut().enumerate() {
        *byte = (i % 251) as u8;
    }
    let total = bytes.len() as u16;
    bytes[..12].copy_from_slice(&[0x45, 0, 0, 0, 0, 1, 0x40, 0, 64, 6, 0, 0]);
    put(bytes, 2, total);
    bytes[12..16].copy_from_slice(&src.to_be_bytes());
    bytes[16..20].copy_from_slice(&dst.to_be_bytes());
    bytes[32] = 0x50;
    bytes[33] = flags;
    for at in [20, 22, 48, 50] {
        put(bytes, at, 0);
    }
    packet::set_sums(bytes);
}

fn bare(size: usize, flags: u8) -> Vec<u8> {
    let mut frame = vec![2; size + 1];
    fill(&mut frame[1..], MACHINE, REMOTE, flags);
    frame
}

fn wrapped(size: usize) -> Vec<u8> {
    let mut frame = vec![2; size + 21];
    frame[1..13].copy_from_slice(&[0x45, 0, 0, 0, 0, 0, 0x40, 0, 64, 4, 0, 0]);
    put(&mut frame, 3, size as u16 + 20);
    frame[13..17].copy_from_slice(&MUX.to_be_bytes());
    frame[17..21].copy_from_slice(&MACHINE.to_be_bytes());
    packet::set_header_sum(&mut frame[1..]);
    fill(&mut frame[21..], REMOTE, VIP, ACK);
    frame
}

fn aim(packet: &mut [u8], ends: Ends) {
    put(packet, 20, ends.sport);
    put(packet, 22, ends.dport);
    put(packet, 48, 0xffff - ends.sport);
    put(packet, 50, 0xffff - ends.dport);
}

fn told(step: &Step) -> u64 {
    let byte = step.sends.first().and_then(|(_, bytes)| bytes.get(21)).copied().unwrap_or(0);
    let counts = [step.acts.len(), step.notes.len(), step.sends.len()];
    counts.iter().fold(u64::from(byte), |check, count| check.wrapping_mul(10).wrapping_add(*count as u64))
}

fn send_each(agent: &mut Agent, frame: &mut [u8], flows: &[Ends]) -> u64 {
    let mut check = 0u64;
    for ends in flows {
        aim(&mut frame[1..], *ends);
        check = check.wrapping_add(told(&black_box(agent.handle((MACHINE, 9000), black_box(frame)))));
    }
    check
}

fn receive_each(agent: &mut Agent, frame: &mut [u8], flows: &[Ends]) -> u64 {
    let mut check = 0u64;
    for ends in flows {
        aim(&mut frame[21..], *ends);
        check = check.wrapping_add(told(&black_box(agent.handle((MUX, 7000), black_box(frame)))));
    }
    check
}

fn all_ends(from: u16, count: u32, back: bool) -> Vec<Ends> {
    let port = |i: u32| from.wrapping_add((i.wrapping_mul(7919) % count) as u16);
    let ends = |port| match back {
        true => Ends { sport: port, dport: 1024 },
        false => Ends { sport: 5000, dport: port },
    };
    (0..count).map(|i| ends(port(i))).collect()
}

fn grant_each(agent: &mut Agent, ranges: u16) {
    let primary = (0x0a00_0001, 7000);
    agent.tick(1000);
    agent.handle(primary, &message(14, &[&1u64.to_be_bytes()]));
    for i in 0..ranges {
        let (n, start) = (u64::from(i) + 1, i * 8 + 1024);
        let fields: [&[u8]; 6] = [
            &1u64.to_be_bytes(),
            &MACHINE.to_be_bytes(),
            &0u64.to_be_bytes(),
            &n.to_be_bytes(),
            &VIP.to_be_bytes(),
            &start.to_be_bytes(),
        ];
        agent.handle(primary, &message(9, &fields));
    }
}

fn measure_connections(count: u32) {
    let tell = |name: &str, size: usize, times: u32, nanos: u64, check: u64| {
        println!("{WHO} {name} {size} {count} {times} {nanos} {check}");
    };
    let mut agent = Agent::new();
    grant_each(&mut agent, 1);
    let (out, back) = (all_ends(1, count, false), all_ends(1, count, true));
    let mut data = bare(64, ACK);
    send_each(&mut agent, &mut data, &out);
    for size in [64, 1400] {
        for (name, flows) in [("out", &out), ("in", &back)] {
            let mut frame = if name == "out" { bare(size, ACK) } else { wrapped(size) };
            for _ in 0..TIMES {
                let start = processor::used();
                let mut check = 0u64;
                for _ in 0..PACKETS / count {
                    check = check.wrapping_add(match name {
                        "out" => send_each(&mut agent, &mut frame, flows),
                        _ => receive_each(&mut agent, &mut frame, flows),
                    });
                }
                tell(name, frame.len(), PACKETS, processor::used() - start, check);
            }
        }
    }
    let extra = all_ends(60_001, u32::from(EXTRA), false);
    let mut reset = bare(64, RST);
    let (mut opening, mut closing, mut check) = (0, 0, 0u64);
    for _ in 0..ROUNDS {
        let start = processor::used();
        check = check.wrapping_add(send_each(&mut agent, &mut data, &extra));
        opening += processor::used() - start;
        let start = processor::used();
        check = check.wrapping_add(send_each(&mut agent, &mut reset, &extra));
        closing += processor::used() - start;
    }
    let times = ROUNDS * u32::from(EXTRA);
    tell("open", 65, times, opening, check);
    tell("close", 65, times, closing, check);
    let tick = |agent: &mut Agent, name: &str, now: u64| {
        let start = processor::used();
        let check = told(&black_box(agent.tick(now)));
        tell(name, 0, 1, processor::used() - start, check);
    };
    tick(&mut agent, "tick-early", 3_000);
    send_each(&mut agent, &mut data, &out);
    tick(&mut agent, "tick-none", 62_000);
    send_each(&mut agent, &mut data, &out[1..]);
    tick(&mut agent, "tick-one", 63_000);
    tick(&mut agent, "tick-all", 122_000);
}

fn main() {
    for count in [100, 60_000] {
        measure_connections(count);
    }
    let mut agent = Agent::new();
    grant_each(&mut agent, 1024);
    let mut frame = bare(64, ACK);
    for (name, from) in [("fill", 1), ("full", 10_000)] {
        let flows: Vec<Ends> = (0..8192).map(|i| Ends { sport: from + i, dport: 53 }).collect();
        let start = processor::used();
        let check = send_each(&mut agent, &mut frame, &flows);
        println!("{WHO} {name} 65 8192 8192 {} {check}", processor::used() - start);
    }
}
