//! A mux in ordinary Rust: the same tests of a packet, a hash map for each table, and flows in the order of their last
//! packets.
use crate::aimed::VIP;
use crate::maps::{HashMap, HashSet};
use crate::packet::{self, Key};

const MOST_UNTRUSTED: usize = 16_384;
const MOST_TRUSTED: usize = 65_536;

pub type Socket = (u32, u16);

pub enum Who {
    Replica,
    Mux,
    Agent,
    Machine,
}

pub enum Cause {
    BadFrame,
    BadMessage,
    WrongRole,
    NotMine,
    Packet,
    NotVip,
    NoEndpoint,
    NoLease,
    TooLong,
    TtlOut,
    OldNumber(u64),
    OldEpoch(u64),
    WrongBoot(u64),
}

const NONE: u32 = u32::MAX;

#[derive(Clone, Copy)]
struct Seen {
    machine: u32,
    count: u8,
    last: u64,
}

struct Node {
    key: Key,
    seen: Seen,
    newer: u32,
    older: u32,
}

/// Flows by their keys, and in the order of their last packets.
struct Flows {
    places: HashMap<Key, u32>,
    nodes: Vec<Node>,
    free: Vec<u32>,
    newest: u32,
    oldest: u32,
}

impl Flows {
    fn new() -> Flows {
        Flows { places: HashMap::default(), nodes: Vec::new(), free: Vec::new(), newest: NONE, oldest: NONE }
    }

    fn unlink(&mut self, at: u32) {
        let (newer, older) = (self.nodes[at as usize].newer, self.nodes[at as usize].older);
        match newer {
            NONE => self.newest = older,
            _ => self.nodes[newer as usize].older = older,
        }
        match older {
            NONE => self.oldest = newer,
            _ => self.nodes[older as usize].newer = newer,
        }
    }

    fn link(&mut self, at: u32) {
        self.nodes[at as usize].newer = NONE;
        self.nodes[at as usize].older = self.newest;
        match self.newest {
            NONE => self.oldest = at,
            newest => self.nodes[newest as usize].newer = at,
        }
        self.newest = at;
    }

    fn find(&self, key: &Key) -> Option<u32> {
        self.places.get(key).copied()
    }

    fn renew(&mut self, at: u32) {
        if self.newest != at {
            self.unlink(at);
            self.link(at);
        }
    }

    fn add(&mut self, key: Key, seen: Seen) {
        let node = Node { key, seen, newer: NONE, older: NONE };
        let at = match self.free.pop() {
            Some(at) => {
                self.nodes[at as usize] = node;
                at
            }
            None => {
                self.nodes.push(node);
                self.nodes.len() as u32 - 1
            }
        };
        self.link(at);
        self.places.insert(key, at);
    }

    fn remove(&mut self, at: u32) -> Seen {
        self.unlink(at);
        self.free.push(at);
        self.places.remove(&self.nodes[at as usize].key);
        self.nodes[at as usize].seen
    }

    fn expire(&mut self, now: u64, idle: u64) {
        while self.oldest != NONE && now - self.nodes[self.oldest as usize].seen.last >= idle {
            self.remove(self.oldest);
        }
    }
}

fn again(seen: &mut Seen, syn: bool, now: u64) {
    seen.count = if syn { 1 } else { seen.count.min(3) + 1 };
    seen.last = now;
}

pub struct Row {
    n: u64,
    machine: Option<u32>,
}

#[derive(Default)]
pub struct Step {
    pub entry: Option<Vec<u8>>,
    pub drops: Vec<Cause>,
    pub sends: Vec<(Socket, Vec<u8>)>,
}

pub struct Mux {
    pub who: HashMap<Socket, Who>,
    agent_of: HashMap<u32, u16>,
    vips: HashSet<u32>,
    endpoints: HashMap<(u32, u8, u16), Vec<u32>>,
    rows: HashMap<(u32, u16), Row>,
    leaving: HashMap<u32, u32>,
    pub own: u32,
    boot: u64,
    epoch: u64,
    time: u64,
    untrusted: Flows,
    trusted: Flows,
}

fn hash(key: &Key) -> u32 {
    let mut hash = 0x811c_9dc5u32;
    let mut mix = |byte: u8| hash = (hash ^ u32::from(byte)).wrapping_mul(0x0100_0193);
    key.src.to_be_bytes().into_iter().for_each(&mut mix);
    key.dst.to_be_bytes().into_iter().for_each(&mut mix);
    key.sport.to_be_bytes().into_iter().for_each(&mut mix);
    key.dport.to_be_bytes().into_iter().for_each(&mut mix);
    mix(key.proto);
    hash
}

fn can_wrap(packet: &[u8]) -> Result<(), Cause> {
    match packet {
        _ if packet.len() > 65_000 => Err(Cause::TooLong),
        _ if packet[8] <= 1 => Err(Cause::TtlOut),
        _ => Ok(()),
    }
}

/// The packet behind an outer header, its time to live lowered by one.
fn wrap(src: u32, dst: u32, packet: &[u8], out: &mut Vec<u8>) -> Result<(), Cause> {
    can_wrap(packet)?;
    let mut outer = [0x45, packet[1], 0, 0, 0, 0, 0x40, 0, 64, 4, 0, 0, 0, 0, 0, 0, 0, 0, 0, 0];
    outer[2..4].copy_from_slice(&(packet.len() as u16 + 20).to_be_bytes());
    outer[12..16].copy_from_slice(&src.to_be_bytes());
    outer[16..20].copy_from_slice(&dst.to_be_bytes());
    packet::set_header_sum(&mut outer);
    out.clear();
    out.extend_from_slice(&outer);
    out.extend_from_slice(packet);
    out[28] -= 1;
    packet::set_header_sum(&mut out[20..]);
    Ok(())
}

impl Mux {
    /// Five replicas, a mux, an agent of 64 machines and an agent of one, and so many VIPs.
    pub fn new(vips: u16) -> Mux {
        let mut mux = Mux {
            who: HashMap::default(),
            agent_of: HashMap::default(),
            vips: HashSet::default(),
            endpoints: HashMap::default(),
            rows: HashMap::default(),
            leaving: HashMap::default(),
            own: 0x0a09_0001,
            boot: 1,
            epoch: 0,
            time: 0,
            untrusted: Flows::new(),
            trusted: Flows::new(),
        };
        for i in 0..5u32 {
            mux.who.insert((0x0a00_0001 + i, 7000), Who::Replica);
        }
        mux.who.insert((0x0a09_0001, 7000), Who::Mux);
        mux.who.insert((0x0a08_0001, 7000), Who::Agent);
        mux.who.insert((0x0a08_0002, 7000), Who::Agent);
        for machine in (0..64).map(|i| 0x0a01_0000 + i).chain([0x0a01_0100]) {
            mux.who.insert((machine, 9000), Who::Machine);
            mux.agent_of.insert(machine, u16::from(machine == 0x0a01_0100));
        }
        for i in 0..u32::from(vips) {
            let (vip, machine) = (VIP + i, 0x0a01_0000 + i);
            mux.vips.insert(vip);
            mux.endpoints.insert((vip, 6, 80), vec![machine, 0x0a01_0100]);
            mux.leaving.insert(machine, vip);
            for start in (1024..=65_528).step_by(8) {
                mux.rows.insert((vip, start), Row { n: 0, machine: None });
            }
        }
        mux
    }

    fn note(&mut self, key: Key, syn: bool, chosen: u32) -> u32 {
        if let Some(at) = self.trusted.find(&key) {
            self.trusted.renew(at);
            let seen = &mut self.trusted.nodes[at as usize].seen;
            again(seen, syn, self.time);
            return seen.machine;
        }
        let Some(at) = self.untrusted.find(&key) else {
            if self.untrusted.places.len() == MOST_UNTRUSTED {
                self.untrusted.remove(self.untrusted.oldest);
            }
            self.untrusted.add(key, Seen { machine: chosen, count: 1, last: self.time });
            return chosen;
        };
        if self.trusted.places.len() == MOST_TRUSTED {
            self.untrusted.renew(at);
            let seen = &mut self.untrusted.nodes[at as usize].seen;
            again(seen, syn, self.time);
            return seen.machine;
        }
        let mut seen = self.untrusted.remove(at);
        again(&mut seen, syn, self.time);
        self.trusted.add(key, seen);
        seen.machine
    }

    /// The number of the agent to which the wrapped packet goes.
    pub fn packet(&mut self, from: &Socket, bytes: &[u8], out: &mut Vec<u8>) -> Result<u16, Cause> {
        match self.who.get(from) {
            None => {}
            Some(Who::Machine) => return Err(Cause::NotMine),
            Some(Who::Replica | Who::Mux | Who::Agent) => return Err(Cause::WrongRole),
        }
        let (key, total) = packet::read(bytes).map_err(|_| Cause::Packet)?;
        let bytes = &bytes[..total];
        if !self.vips.contains(&key.dst) {
            return Err(Cause::NotVip);
        }
        let machine = match self.endpoints.get(&(key.dst, key.proto, key.dport)) {
            Some(machines) if !machines.is_empty() => {
                let chosen = machines[hash(&key) as usize % machines.len()];
                can_wrap(bytes)?;
                let flags = bytes[usize::from(bytes[0] & 15) * 4 + 13];
                self.note(key, key.proto == 6 && flags & 0x12 == 2, chosen)
            }
            _ => match self.rows.get(&(key.dst, key.dport & !7)) {
                None => return Err(Cause::NoEndpoint),
                Some(row) => row.machine.ok_or(Cause::NoLease)?,
            },
        };
        wrap(self.own, machine, bytes, out)?;
        Ok(self.agent_of.get(&machine).copied().unwrap_or(0))
    }

    fn order(&mut self, from: Socket, message: &[u8], step: &mut Step) -> Result<(), Cause> {
        let (kind, fields) = (message[1], &message[2..]);
        let number = |at: usize| u64::from_be_bytes(fields[at..at + 8].try_into().unwrap());
        let address = |at: usize| u32::from_be_bytes(fields[at..at + 4].try_into().unwrap());
        let (epoch, boot, n) = (number(0), number(8), number(16));
        let (vip, start) = (address(24), u16::from_be_bytes(fields[28..30].try_into().unwrap()));
        if start % 8 != 0 || start < 1024 {
            return Err(Cause::BadMessage);
        }
        let refused = match () {
            _ if boot != self.boot => Some(Cause::WrongBoot(self.boot)),
            _ if epoch < self.epoch => Some(Cause::OldEpoch(self.epoch)),
            _ => None,
        };
        if let Some(cause) = refused {
            step.sends.push((from, reply(20, [epoch, self.boot, self.epoch])));
            return Err(cause);
        }
        if epoch > self.epoch {
            self.epoch = epoch;
            let mut entry = vec![5];
            entry.extend_from_slice(&epoch.to_be_bytes());
            step.entry = Some(entry);
        }
        let row = self.rows.get_mut(&(vip, start)).ok_or(Cause::NotMine)?;
        if kind == 16 {
            let machine = address(30);
            if self.leaving.get(&machine) != Some(&vip) {
                return Err(Cause::NotMine);
            }
            if row.n < n {
                *row = Row { n, machine: Some(machine) };
            } else if row.n > n || row.machine.is_none() {
                return Err(Cause::OldNumber(row.n));
            }
        } else if row.n <= n {
            *row = Row { n, machine: None };
        }
        step.sends.push((from, reply(kind + 1, [epoch, boot, n])));
        Ok(())
    }

    fn take(&mut self, from: Socket, bytes: &[u8], step: &mut Step) -> Result<(), Cause> {
        let Some((1, message)) = bytes.split_first() else {
            return Err(Cause::BadFrame);
        };
        match (message, self.who.get(&from)) {
            ([1, 16, fields @ ..], Some(Who::Replica)) if fields.len() == 34 => self.order(from, message, step),
            ([1, 18, fields @ ..], Some(Who::Replica)) if fields.len() == 30 => self.order(from, message, step),
            ([1, 1..=23, ..], _) => Err(Cause::WrongRole),
            _ => Err(Cause::BadMessage),
        }
    }

    pub fn handle(&mut self, from: Socket, bytes: &[u8]) -> Step {
        let mut step = Step::default();
        if let Err(cause) = self.take(from, bytes, &mut step) {
            step.drops.push(cause);
        }
        step
    }

    pub fn tick(&mut self, now: u64) {
        self.time = self.time.max(now);
        self.untrusted.expire(self.time, 60_000);
        self.trusted.expire(self.time, 60_000);
    }
}

pub fn reply(kind: u8, numbers: [u64; 3]) -> Vec<u8> {
    let mut bytes = vec![1, 1, kind];
    for number in numbers {
        bytes.extend_from_slice(&number.to_be_bytes());
    }
    bytes
}
