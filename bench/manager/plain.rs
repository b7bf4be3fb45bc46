//! The job of the proved program in plain Rust: managers whose tables are the standard library's, with what muxes have not
//! yet acknowledged kept in sets of its own. Takes the number of muxes as an argument.
#[path = "../plain/maps.rs"]
#[allow(dead_code, unused_imports)]
mod maps;
#[path = "../plain/processor.rs"]
mod processor;

use maps::{HashMap, WHO};
use std::collections::{BTreeMap, BTreeSet, VecDeque};

const MACHINES: u16 = 64;
const TIMES: u16 = 5;
const AGENT: u32 = 0x0a08_0001;
const REPLICA: u32 = 0x0a00_0001;
const MUX: u32 = 0x0a09_0001;
const MACHINE: u32 = 0x0a01_0000;
const VIP: u32 = 0xc000_0200;
const LIMIT: u32 = 1024;
const LEAD_SILENT: u64 = 1000;
const MUX_SILENT: u64 = 5000;
const MOST_QUEUED: usize = 4096;

#[derive(Clone, PartialEq)]
enum Command {
    Reserve { agent: u16, boot: u64, machine: u32, seq: u64 },
    Granted { n: u64, holders: Vec<(u16, u64)> },
}

type Commands = Vec<Command>;

#[derive(Clone)]
enum Message {
    Prepare { ballot: u64 },
    Promise { ballot: u64, length: u64, vote: u64, value: Option<Commands> },
    Accept { ballot: u64, slot: u64, value: Commands },
    Accepted { ballot: u64, slot: u64 },
    Refuse { ballot: u64, promised: u64 },
    Chosen { slot: u64, ballot: u64, value: Commands },
    Fetch { slot: u64 },
    Ask { boot: u64, machine: u32, seq: u64 },
    Grant { boot: u64, machine: u32, seq: u64, n: u64, vip: u32, start: u16 },
    Denied { boot: u64, machine: u32, seq: u64, reason: u8, number: u64 },
    MuxHello { boot: u64, epoch: u64 },
    Program { epoch: u64, boot: u64, n: u64, vip: u32, start: u16, machine: u32 },
    Programmed { epoch: u64, boot: u64, n: u64 },
    Lead { ballot: u64, length: u64 },
}

struct Writer(Vec<u8>);

impl Writer {
    fn new(kind: u8) -> Writer {
        Writer(vec![1, 1, kind])
    }

    fn number(mut self, number: u64) -> Writer {
        self.0.extend_from_slice(&number.to_be_bytes());
        self
    }

    fn address(mut self, address: u32) -> Writer {
        self.0.extend_from_slice(&address.to_be_bytes());
        self
    }

    fn port(mut self, port: u16) -> Writer {
        self.0.extend_from_slice(&port.to_be_bytes());
        self
    }

    fn byte(mut self, byte: u8) -> Writer {
        self.0.push(byte);
        self
    }

    fn value(self, value: &[Command]) -> Writer {
        value.iter().fold(self.byte(value.len() as u8), |out, command| match command {
            Command::Reserve { agent, boot, machine, seq } => {
                out.byte(1).port(*agent).number(*boot).address(*machine).number(*seq)
            }
            Command::Granted { n, holders } => {
                let out = out.byte(2).number(*n).byte(holders.len() as u8);
                holders.iter().fold(out, |out, (mux, boot)| out.port(*mux).number(*boot))
            }
        })
    }
}

struct Reader<'a>(&'a [u8]);

impl Reader<'_> {
    fn bytes<const N: usize>(&mut self) -> Option<[u8; N]> {
        let (first, rest) = self.0.split_first_chunk()?;
        self.0 = rest;
        Some(*first)
    }

    fn number(&mut self) -> Option<u64> {
        self.bytes().map(u64::from_be_bytes)
    }

    fn address(&mut self) -> Option<u32> {
        self.bytes().map(u32::from_be_bytes)
    }

    fn port(&mut self) -> Option<u16> {
        self.bytes().map(u16::from_be_bytes)
    }

    fn byte(&mut self) -> Option<u8> {
        self.bytes().map(|[byte]| byte)
    }

    fn command(&mut self) -> Option<Command> {
        match self.byte()? {
            1 => Some(Command::Reserve {
                agent: self.port()?,
                boot: self.number()?,
                machine: self.address()?,
                seq: self.number()?,
            }),
            2 => {
                let n = self.number()?;
                let count = self.byte()?;
                let holders = (0..count).map(|_| Some((self.port()?, self.number()?))).collect::<Option<_>>()?;
                Some(Command::Granted { n, holders })
            }
            _ => None,
        }
    }

    fn value(&mut self) -> Option<Commands> {
        let count = self.byte()?;
        if count == 0 || count > 16 {
            return None;
        }
        (0..count).map(|_| self.command()).collect()
    }
}

fn encode(message: &Message) -> Vec<u8> {
    let out = match message {
        Message::Prepare { ballot } => Writer::new(1).number(*ballot),
        Message::Promise { ballot, length, vote, value } => {
            let out = Writer::new(2).number(*ballot).number(*length).number(*vote);
            match value {
                Some(value) => out.value(value),
                None => out,
            }
        }
        Message::Accept { ballot, slot, value } => Writer::new(3).number(*ballot).number(*slot).value(value),
        Message::Accepted { ballot, slot } => Writer::new(4).number(*ballot).number(*slot),
        Message::Refuse { ballot, promised } => Writer::new(5).number(*ballot).number(*promised),
        Message::Chosen { slot, ballot, value } => Writer::new(6).number(*slot).number(*ballot).value(value),
        Message::Fetch { slot } => Writer::new(7).number(*slot),
        Message::Ask { boot, machine, seq } => Writer::new(8).number(*boot).address(*machine).number(*seq),
        Message::Grant { boot, machine, seq, n, vip, start } => {
            Writer::new(9).number(*boot).address(*machine).number(*seq).number(*n).address(*vip).port(*start)
        }
        Message::Denied { boot, machine, seq, reason, number } => {
            Writer::new(10).number(*boot).address(*machine).number(*seq).byte(*reason).number(*number)
        }
        Message::MuxHello { boot, epoch } => Writer::new(15).number(*boot).number(*epoch),
        Message::Program { epoch, boot, n, vip, start, machine } => {
            Writer::new(16).number(*epoch).number(*boot).number(*n).address(*vip).port(*start).address(*machine)
        }
        Message::Programmed { epoch, boot, n } => Writer::new(17).number(*epoch).number(*boot).number(*n),
        Message::Lead { ballot, length } => Writer::new(21).number(*ballot).number(*length),
    };
    out.0
}

fn decode(bytes: &[u8]) -> Option<Message> {
    let [1, 1, kind, fields @ ..] = bytes else { return None };
    let mut r = Reader(fields);
    let message = match kind {
        1 => Message::Prepare { ballot: r.number()? },
        2 => {
            let (ballot, length, vote) = (r.number()?, r.number()?, r.number()?);
            let value = if vote > 0 { Some(r.value()?) } else { None };
            Message::Promise { ballot, length, vote, value }
        }
        3 => Message::Accept { ballot: r.number()?, slot: r.number()?, value: r.value()? },
        4 => Message::Accepted { ballot: r.number()?, slot: r.number()? },
        5 => Message::Refuse { ballot: r.number()?, promised: r.number()? },
        6 => Message::Chosen { slot: r.number()?, ballot: r.number()?, value: r.value()? },
        7 => Message::Fetch { slot: r.number()? },
        8 => Message::Ask { boot: r.number()?, machine: r.address()?, seq: r.number()? },
        15 => Message::MuxHello { boot: r.number()?, epoch: r.number()? },
        17 => Message::Programmed { epoch: r.number()?, boot: r.number()?, n: r.number()? },
        21 => Message::Lead { ballot: r.number()?, length: r.number()? },
        _ => return None,
    };
    r.0.is_empty().then_some(message)
}

#[derive(Clone, Copy, PartialEq)]
enum Phase {
    BeingLeased,
    Leased,
}

#[derive(Clone, Copy)]
struct Row {
    n: u64,
    vip: u32,
    start: u16,
    machine: u32,
    agent: u16,
    boot: u64,
    seq: u64,
    phase: Phase,
}

#[derive(Clone, Copy)]
enum Outcome {
    Reserved(u64),
    Exhausted(u64),
    AtLimit(u32),
}

enum Effect {
    Reserved(Row),
    Granted(Row),
    Denied { machine: u32, boot: u64, seq: u64, reason: u8, number: u64 },
}

/// The lease table, which the log's commands make.
struct Table {
    rules: HashMap<u32, (u16, u32)>,
    rows: BTreeMap<u64, Row>,
    being_leased: BTreeSet<u64>,
    free: HashMap<u32, BTreeSet<u16>>,
    counts: HashMap<u32, u32>,
    known: HashMap<u16, u64>,
    lasts: HashMap<u32, (u64, u64, Outcome)>,
}

impl Table {
    fn new() -> Table {
        let rules = (0..u32::from(MACHINES)).map(|i| (MACHINE + i, (0, VIP + i / 8))).collect();
        let free = (0..8).map(|i| (VIP + i, (1024..=65_528).step_by(8).collect())).collect();
        Table {
            rules,
            rows: BTreeMap::new(),
            being_leased: BTreeSet::new(),
            free,
            counts: HashMap::default(),
            known: HashMap::default(),
            lasts: HashMap::default(),
        }
    }

    fn reserve(&mut self, place: u64, agent: u16, boot: u64, machine: u32, seq: u64) -> Option<Effect> {
        let &(owner, vip) = self.rules.get(&machine)?;
        let last = self.lasts.get(&machine).is_some_and(|&(life, count, _)| (boot, seq) <= (life, count));
        if owner != agent || boot < self.known.get(&agent).copied().unwrap_or(0) || last {
            return None;
        }
        self.known.insert(agent, boot);
        let count = self.counts.entry(machine).or_default();
        if *count >= LIMIT {
            self.lasts.insert(machine, (boot, seq, Outcome::AtLimit(*count)));
            return Some(Effect::Denied { machine, boot, seq, reason: 2, number: u64::from(*count) });
        }
        let Some(start) = self.free.get_mut(&vip)?.pop_first() else {
            self.lasts.insert(machine, (boot, seq, Outcome::Exhausted(place)));
            return Some(Effect::Denied { machine, boot, seq, reason: 1, number: place });
        };
        *count += 1;
        let row = Row { n: place, vip, start, machine, agent, boot, seq, phase: Phase::BeingLeased };
        self.rows.insert(place, row);
        self.being_leased.insert(place);
        self.lasts.insert(machine, (boot, seq, Outcome::Reserved(place)));
        Some(Effect::Reserved(row))
    }

    fn grant(&mut self, n: u64) -> Option<Effect> {
        let row = self.rows.get_mut(&n)?;
        if row.phase != Phase::BeingLeased {
            return None;
        }
        row.phase = Phase::Leased;
        self.being_leased.remove(&n);
        Some(Effect::Granted(*row))
    }

    fn apply(&mut self, slot: u64, value: &[Command]) -> Vec<Effect> {
        let places = (16 * slot + 1..).zip(value);
        places
            .filter_map(|(place, command)| match command {
                Command::Reserve { agent, boot, machine, seq } => self.reserve(place, *agent, *boot, *machine, *seq),
                Command::Granted { n, .. } => self.grant(*n),
            })
            .collect()
    }
}

#[derive(Clone, Copy, PartialEq)]
enum Stage {
    Follower,
    Candidate,
    Inheriting,
    Primary,
}

#[derive(Clone, Copy, Default)]
struct Peer {
    boot: u64,
    heard_at: u64,
}

struct Outstanding {
    slot: u64,
    value: Commands,
    accepted: BTreeSet<u8>,
}

#[derive(Clone, Copy)]
enum Who {
    Replica(u8),
    Mux(u16),
    Agent(u16),
}

#[allow(dead_code)]
enum Act {
    Reserve(Row),
    Grant(u64),
}

#[derive(Default)]
struct Step {
    entry: Option<Vec<u8>>,
    acts: Vec<Act>,
    drops: Vec<&'static str>,
    sends: Vec<(u32, Vec<u8>)>,
}

impl Step {
    fn say(&mut self, to: u32, message: &Message) {
        self.sends.push((to, encode(message)));
    }

    fn say_each(&mut self, to: impl Iterator<Item = u8>, message: &Message) {
        to.for_each(|i| self.say(REPLICA + u32::from(i), message));
    }

    fn write(&mut self, kind: u8, ballot: u64, value: &[Command]) {
        let out = Writer(vec![kind]).number(ballot);
        self.entry = Some(if value.is_empty() { out.0 } else { out.value(value).0 });
    }
}

struct Manager {
    index: u8,
    who: HashMap<u32, Who>,
    promise: u64,
    vote: Option<(u64, Commands)>,
    log: Vec<(u64, Commands)>,
    table: Table,
    stage: Stage,
    ballot: u64,
    seen: u64,
    goal: (u64, u8),
    promises: BTreeMap<u8, (u64, u64, Option<Commands>)>,
    outstanding: Option<Outstanding>,
    acks: HashMap<u64, [u64; 16]>,
    /// Of each mux the rows that it didn't acknowledge in its known boot.
    pending: Vec<BTreeSet<u64>>,
    queue: VecDeque<Command>,
    peers: Vec<Peer>,
    time: u64,
    heard: u64,
}

impl Manager {
    fn new(index: u8, muxes: u16) -> Manager {
        let replicas = (0..5).map(|i| (REPLICA + u32::from(i), Who::Replica(i)));
        let others = (0..muxes).map(|i| (MUX + u32::from(i), Who::Mux(i)));
        Manager {
            index,
            who: replicas.chain(others).chain([(AGENT, Who::Agent(0))]).collect(),
            promise: 0,
            vote: None,
            log: Vec::new(),
            table: Table::new(),
            stage: Stage::Follower,
            ballot: 0,
            seen: 0,
            goal: (0, 0),
            promises: BTreeMap::new(),
            outstanding: None,
            acks: HashMap::default(),
            pending: vec![BTreeSet::new(); usize::from(muxes)],
            queue: VecDeque::new(),
            peers: vec![Peer::default(); usize::from(muxes)],
            time: 0,
            heard: 0,
        }
    }

    fn length(&self) -> u64 {
        self.log.len() as u64
    }

    fn others(&self) -> impl Iterator<Item = u8> + use<> {
        let own = self.index;
        (0..5).filter(move |i| *i != own)
    }

    fn step_down(&mut self) {
        self.stage = Stage::Follower;
        self.queue.clear();
        self.acks.clear();
        self.pending.iter_mut().for_each(BTreeSet::clear);
        self.outstanding = None;
        self.promises.clear();
    }

    fn behind(&mut self, step: &mut Step, length: u64, from: u8) {
        self.goal = (length, from);
        step.say(REPLICA + u32::from(from), &Message::Fetch { slot: self.length() });
    }

    fn learn(&mut self, step: &mut Step, ballot: u64, value: Commands) -> Vec<Effect> {
        step.write(4, ballot, &value);
        let effects = self.table.apply(self.length(), &value);
        for effect in &effects {
            match effect {
                Effect::Reserved(row) => step.acts.push(Act::Reserve(*row)),
                Effect::Granted(row) => step.acts.push(Act::Grant(row.n)),
                Effect::Denied { .. } => {}
            }
        }
        self.log.push((ballot, value));
        self.vote = None;
        self.promise = self.promise.max(ballot);
        effects
    }

    fn become_primary(&mut self) {
        self.stage = Stage::Primary;
        for pending in &mut self.pending {
            *pending = self.table.rows.keys().copied().collect();
        }
    }

    fn offer(&mut self, step: &mut Step, value: Commands) {
        let accept = Message::Accept { ballot: self.ballot, slot: self.length(), value: value.clone() };
        self.outstanding = Some(Outstanding { slot: self.length(), value, accepted: BTreeSet::new() });
        step.say_each(0..5, &accept);
    }

    fn on_promise(&mut self, step: &mut Step, from: u8, length: u64, vote: u64, value: Option<Commands>) {
        self.promises.insert(from, (length, vote, value));
        if self.promises.len() < 3 {
            return;
        }
        let most = self.promises.values().map(|promise| promise.0).max().unwrap_or(0);
        if most > self.length() {
            let (&from, _) = self.promises.iter().find(|(_, promise)| promise.0 == most).unwrap();
            return self.behind(step, most, from);
        }
        let own = self.length();
        let votes = self.promises.values().filter(|promise| promise.0 == own && promise.1 > 0);
        match votes.max_by_key(|promise| promise.1).and_then(|promise| promise.2.clone()) {
            Some(value) => {
                self.stage = Stage::Inheriting;
                self.offer(step, value);
            }
            None => self.become_primary(),
        }
    }

    fn on_accept(&mut self, step: &mut Step, from: u8, ballot: u64, slot: u64, value: Commands) {
        let to = REPLICA + u32::from(from);
        if ballot < self.promise {
            return step.say(to, &Message::Refuse { ballot, promised: self.promise });
        }
        if slot != self.length() {
            if slot < self.length() {
                return step.drops.push("Late");
            }
            return self.behind(step, slot, from);
        }
        if self.vote.as_ref().is_none_or(|vote| vote.0 != ballot || vote.1 != value) {
            step.write(3, ballot, &value);
            self.vote = Some((ballot, value));
            self.promise = ballot;
            if self.stage != Stage::Follower && self.ballot < ballot {
                self.step_down();
            }
            self.heard = self.time;
        }
        step.say(to, &Message::Accepted { ballot, slot });
    }

    fn on_accepted(&mut self, step: &mut Step, from: u8, ballot: u64, slot: u64) -> bool {
        let leads = self.ballot == ballot && matches!(self.stage, Stage::Inheriting | Stage::Primary);
        let Some(out) = self.outstanding.as_mut().filter(|out| leads && out.slot == slot) else {
            step.drops.push("Late");
            return false;
        };
        if !out.accepted.insert(from) {
            step.drops.push("Late");
            return false;
        }
        if out.accepted.len() < 3 {
            return false;
        }
        let Some(out) = self.outstanding.take() else { return false };
        let chosen = Message::Chosen { slot, ballot, value: out.value.clone() };
        let effects = self.learn(step, ballot, out.value);
        if self.stage == Stage::Inheriting {
            self.become_primary();
        }
        step.say_each(self.others(), &chosen);
        effects.iter().for_each(|effect| self.order(step, effect));
        true
    }

    fn program(&self, row: &Row, boot: u64) -> Message {
        let (n, vip, start, machine) = (row.n, row.vip, row.start, row.machine);
        Message::Program { epoch: self.ballot, boot, n, vip, start, machine }
    }

    fn order(&mut self, step: &mut Step, effect: &Effect) {
        match effect {
            Effect::Reserved(row) => {
                self.pending.iter_mut().for_each(|pending| _ = pending.insert(row.n));
                for (mux, peer) in (0..).zip(&self.peers).filter(|(_, peer)| peer.boot > 0) {
                    step.say(MUX + mux, &self.program(row, peer.boot));
                }
            }
            Effect::Granted(row) => {
                let Row { boot, machine, seq, n, vip, start, .. } = *row;
                step.say(AGENT + u32::from(row.agent), &Message::Grant { boot, machine, seq, n, vip, start });
            }
            Effect::Denied { machine, boot, seq, reason, number } => {
                let denied = Message::Denied { boot: *boot, machine: *machine, seq: *seq, reason: *reason, number: *number };
                step.say(AGENT, &denied);
            }
        }
    }

    fn from_replica(&mut self, step: &mut Step, from: u8, message: Message) -> bool {
        let to = REPLICA + u32::from(from);
        match message {
            Message::Prepare { ballot } if ballot < self.promise => {
                step.say(to, &Message::Refuse { ballot, promised: self.promise });
            }
            Message::Prepare { ballot } => {
                if ballot > self.promise {
                    step.write(2, ballot, &[]);
                    self.promise = ballot;
                    self.step_down();
                    self.heard = self.time;
                }
                let (vote, value) = self.vote.clone().map_or((0, None), |(vote, value)| (vote, Some(value)));
                step.say(to, &Message::Promise { ballot, length: self.length(), vote, value });
            }
            Message::Promise { ballot, length, vote, value } => {
                let is_new = !self.promises.contains_key(&from);
                if self.stage == Stage::Candidate && self.ballot == ballot && is_new {
                    self.on_promise(step, from, length, vote, value);
                } else {
                    step.drops.push("Late");
                }
            }
            Message::Accept { ballot, slot, value } => self.on_accept(step, from, ballot, slot, value),
            Message::Accepted { ballot, slot } => return self.on_accepted(step, from, ballot, slot),
            Message::Refuse { ballot, promised } => {
                if self.stage != Stage::Follower && ballot == self.ballot && promised > ballot {
                    self.seen = self.seen.max(promised);
                    self.step_down();
                    self.heard = self.time;
                }
            }
            Message::Chosen { slot, ballot, value } => {
                if slot < self.length() {
                    step.drops.push("Late");
                } else if slot > self.length() {
                    self.behind(step, slot, from);
                } else {
                    self.learn(step, ballot, value);
                    self.heard = self.time;
                    if self.goal.0 > self.length() {
                        self.behind(step, self.goal.0, self.goal.1);
                    }
                }
            }
            Message::Fetch { slot } => match self.log.get(slot as usize) {
                Some((ballot, value)) => {
                    step.say(to, &Message::Chosen { slot, ballot: *ballot, value: value.clone() });
                }
                None => step.drops.push("Late"),
            },
            Message::Lead { ballot, .. } if ballot < self.promise => {
                step.say(to, &Message::Refuse { ballot, promised: self.promise });
            }
            Message::Lead { ballot, length } => {
                self.heard = self.time;
                self.seen = self.seen.max(ballot);
                if length > self.length() {
                    self.behind(step, length, from);
                }
            }
            _ => step.drops.push("WrongRole"),
        }
        false
    }

    fn hear(&mut self, mux: u16, boot: u64) {
        let peer = &mut self.peers[usize::from(mux)];
        if boot > peer.boot {
            self.pending[usize::from(mux)] = self.table.rows.keys().copied().collect();
        }
        *peer = Peer { boot: peer.boot.max(boot), heard_at: self.time };
    }

    fn from_mux(&mut self, step: &mut Step, mux: u16, message: Message) -> bool {
        match message {
            Message::MuxHello { boot, .. } if boot < self.peers[usize::from(mux)].boot => step.drops.push("Late"),
            Message::MuxHello { boot, epoch } => {
                self.hear(mux, boot);
                self.seen = self.seen.max(epoch);
                if self.stage != Stage::Follower && epoch > self.ballot {
                    self.step_down();
                }
                return true;
            }
            Message::Programmed { epoch, boot, n } => {
                if self.stage != Stage::Primary || epoch != self.ballot || !self.table.rows.contains_key(&n) {
                    step.drops.push("Late");
                    return false;
                }
                self.hear(mux, boot);
                let marks = self.acks.entry(n).or_default();
                marks[usize::from(mux)] = marks[usize::from(mux)].max(boot);
                if boot == self.peers[usize::from(mux)].boot {
                    self.pending[usize::from(mux)].remove(&n);
                }
                return true;
            }
            _ => step.drops.push("WrongRole"),
        }
        false
    }

    fn from_agent(&mut self, step: &mut Step, agent: u16, message: Message) -> bool {
        let Message::Ask { boot, machine, seq } = message else {
            step.drops.push("WrongRole");
            return false;
        };
        let cause = match () {
            _ if self.stage != Stage::Primary => "NotPrimary",
            _ if self.table.rules.get(&machine).is_none_or(|rule| rule.0 != agent) => "NotMine",
            _ if boot < self.table.known.get(&agent).copied().unwrap_or(0) => "Late",
            _ => "",
        };
        if !cause.is_empty() {
            step.drops.push(cause);
            return false;
        }
        if let Some(&(life, count, outcome)) = self.table.lasts.get(&machine) {
            if (boot, seq) < (life, count) {
                step.drops.push("Late");
                return false;
            }
            if (boot, seq) == (life, count) {
                let answer = match outcome {
                    Outcome::Reserved(n) => match self.table.rows.get(&n) {
                        Some(row) if row.phase == Phase::Leased => Some(Effect::Granted(*row)),
                        _ => None,
                    },
                    Outcome::Exhausted(place) => Some(Effect::Denied { machine, boot, seq, reason: 1, number: place }),
                    Outcome::AtLimit(count) => {
                        Some(Effect::Denied { machine, boot, seq, reason: 2, number: u64::from(count) })
                    }
                };
                match answer {
                    Some(effect) => self.order(step, &effect),
                    None => step.drops.push("Waiting"),
                }
                return true;
            }
        }
        let request = Command::Reserve { agent, boot, machine, seq };
        let is_out = self.outstanding.as_ref().is_some_and(|out| out.value.contains(&request));
        if is_out || self.queue.contains(&request) {
            step.drops.push("Waiting");
        } else if self.queue.len() >= MOST_QUEUED {
            step.drops.push("QueueFull");
        } else {
            self.queue.push_back(request);
            return true;
        }
        false
    }

    fn is_near(&self, peer: &Peer) -> bool {
        peer.boot > 0 && self.time - peer.heard_at <= MUX_SILENT
    }

    fn due(&self, n: u64) -> Option<Command> {
        let marks = self.acks.get(&n)?;
        let peers = || (0u16..).zip(&self.peers);
        let has = |mux: u16, peer: &Peer| peer.boot > 0 && marks[usize::from(mux)] == peer.boot;
        if peers().any(|(mux, peer)| self.is_near(peer) && !has(mux, peer)) {
            return None;
        }
        let holders: Vec<_> = peers().filter(|(mux, peer)| has(*mux, peer)).map(|(mux, peer)| (mux, peer.boot)).collect();
        (!holders.is_empty()).then_some(Command::Granted { n, holders })
    }

    fn propose(&mut self, step: &mut Step) {
        if self.stage != Stage::Primary || self.outstanding.is_some() {
            return;
        }
        let mut value: Commands = self.table.being_leased.iter().filter_map(|n| self.due(*n)).take(16).collect();
        while value.len() < 16 {
            let Some(request) = self.queue.pop_front() else { break };
            value.push(request);
        }
        if !value.is_empty() {
            self.offer(step, value);
        }
    }

    fn handle(&mut self, from: u32, bytes: &[u8]) -> Step {
        let mut step = Step::default();
        let proposes = match (decode(bytes), self.who.get(&from).copied()) {
            (None, _) => {
                step.drops.push("BadMessage");
                false
            }
            (Some(message), Some(Who::Replica(i))) => self.from_replica(&mut step, i, message),
            (Some(message), Some(Who::Mux(i))) => self.from_mux(&mut step, i, message),
            (Some(message), Some(Who::Agent(i))) => self.from_agent(&mut step, i, message),
            (Some(_), None) => {
                step.drops.push("NotNode");
                false
            }
        };
        if proposes {
            self.propose(&mut step);
        }
        step
    }

    fn push(&self, step: &mut Step) {
        let near = || (0u32..).zip(&self.peers).filter(|(_, peer)| self.is_near(peer));
        let mut due: BTreeSet<(u64, u32)> = BTreeSet::new();
        for (mux, _) in near() {
            due.extend(self.pending[mux as usize].iter().take(64).map(|n| (*n, mux)));
        }
        for (n, mux) in due.into_iter().take(64) {
            step.say(MUX + mux, &self.program(&self.table.rows[&n], self.peers[mux as usize].boot));
        }
    }

    fn tick(&mut self, now: u64) -> Step {
        let mut step = Step::default();
        self.time = self.time.max(now);
        if self.stage == Stage::Primary {
            step.say_each(self.others(), &Message::Lead { ballot: self.ballot, length: self.length() });
            if let Some(out) = &self.outstanding {
                let accept = Message::Accept { ballot: self.ballot, slot: out.slot, value: out.value.clone() };
                step.say_each(0..5, &accept);
            }
            self.push(&mut step);
            self.propose(&mut step);
        } else if self.time - self.heard >= LEAD_SILENT {
            self.step_down();
            self.ballot = (self.promise.max(self.seen) / 5 + 1) * 5 + u64::from(self.index);
            self.promise = self.ballot;
            step.write(2, self.ballot, &[]);
            self.stage = Stage::Candidate;
            self.heard = self.time;
            step.say_each(0..5, &Message::Prepare { ballot: self.ballot });
        }
        step
    }
}

struct Mail {
    from: u32,
    to: u32,
    bytes: Vec<u8>,
}

struct World {
    managers: Vec<Manager>,
    waiting: VecDeque<Mail>,
}

impl World {
    fn post(&mut self, from: u32, to: u32, bytes: Vec<u8>) {
        self.waiting.push_back(Mail { from, to, bytes });
    }

    fn post_each(&mut self, from: u32, step: Step) {
        let _ = (step.entry, step.acts.len(), step.drops.len());
        step.sends.into_iter().for_each(|(to, bytes)| self.post(from, to, bytes));
    }

    fn settle(&mut self) -> (u64, u64) {
        let (mut all, mut grants) = (0, 0);
        while let Some(mail) = self.waiting.pop_front() {
            all += 1;
            if mail.to.wrapping_sub(REPLICA) < 5 {
                let step = self.managers[(mail.to - REPLICA) as usize].handle(mail.from, &mail.bytes);
                self.post_each(mail.to, step);
            } else if mail.to.wrapping_sub(MUX) < 16 {
                let mut bytes = mail.bytes[..27].to_vec();
                bytes[2] = 17;
                self.post(mail.to, mail.from, bytes);
            } else {
                grants += u64::from(mail.bytes[2] == 9);
            }
        }
        (all, grants)
    }

    fn ask(&mut self, machine: u16, seq: u16) {
        let (machine, seq) = (MACHINE + u32::from(machine), u64::from(seq));
        self.post(AGENT, REPLICA, encode(&Message::Ask { boot: 1, machine, seq }));
    }

    fn ask_together(&mut self, seq: u16, machines: u16) -> u64 {
        (0..machines).for_each(|machine| self.ask(machine, seq));
        self.settle().1
    }
}

fn main() {
    let muxes: u16 = std::env::args().nth(1).and_then(|text| text.parse().ok()).unwrap_or(1);
    for leases in [100u16, 60_000] {
        let managers = (0..5).map(|index| Manager::new(index, muxes)).collect();
        let mut world = World { managers, waiting: VecDeque::new() };
        for mux in 0..u32::from(muxes) {
            world.post(MUX + mux, REPLICA, encode(&Message::MuxHello { boot: 1, epoch: 0 }));
        }
        let step = world.managers[0].tick(1000);
        world.post_each(REPLICA, step);
        world.settle();
        let start = processor::used();
        let mut granted: u64 = (0..leases / MACHINES).map(|round| world.ask_together(round + 1, MACHINES)).sum();
        granted += world.ask_together(leases / MACHINES + 1, leases % MACHINES);
        println!("{WHO} fill {muxes} {leases} {granted} {} 0", processor::used() - start);
        for i in 0..TIMES {
            let start = processor::used();
            let (mut all, mut grants) = (0, 0);
            for machine in 0..MACHINES {
                world.ask(machine, leases / MACHINES + 2 + i);
                let (more, granted) = world.settle();
                all += more;
                grants += granted;
            }
            println!("{WHO} ask {muxes} {leases} {grants} {} {all}", processor::used() - start);
            let start = processor::used();
            let step = world.managers[0].tick(1001 + u64::from(i));
            world.post_each(REPLICA, step);
            let nanos = processor::used() - start;
            println!("{WHO} tick {muxes} {leases} 1 {nanos} {}", world.settle().0);
        }
    }
}
