//! A host agent: its machines' packets, its leases and its connections.
use crate::config::{Config, NodeId, Who};
use crate::connections::{Connection, Connections};
use crate::journal::Journal;
use crate::messages::Message;
use crate::packets::{self, Key, TCP};
use crate::ranges::Ranges;
use crate::step::{Act, Cause, Note, Step, To, late};
use crate::{HAS_JOURNALS, HAS_REDIRECTS};
use std::collections::VecDeque;
use std::rc::Rc;

const MOST_HELD: usize = 64;
const MOST_RETURNED: usize = 64;
const MOST_CONNECTIONS: usize = 65_536;

#[derive(Default)]
struct Own {
    held: VecDeque<Vec<u8>>,
    seq: u64,
    /// When the Ask that is out was said last.
    asked: Option<u64>,
}

#[derive(Default)]
struct Memory {
    time: u64,
    is_known: bool,
    hint: u8,
    machines: Vec<Own>,
    ranges: Ranges,
    connections: Connections,
    inbound: Connections,
}

pub struct Agent<'c> {
    config: &'c Config,
    /// The place of its first machine.
    first: usize,
    index: u16,
    journal: Journal,
    boot: u64,
    memory: Memory,
}

/// A frame with the packet in it, which `edit` changes.
fn frame(packet: &[u8], edit: impl Fn(&mut [u8])) -> Rc<[u8]> {
    let mut frame = Vec::with_capacity(packet.len() + 1);
    frame.push(2);
    frame.extend_from_slice(packet);
    edit(&mut frame[1..]);
    frame.into()
}

impl<'c> Agent<'c> {
    pub fn new(config: &'c Config, index: u16) -> Agent<'c> {
        let first = config.agents[usize::from(index)].machines.start;
        let (journal, memory) = (Journal::new(), Memory::default());
        let mut agent = Agent { config, first, index, journal, boot: 0, memory };
        agent.memory.machines.resize_with(config.agents[usize::from(index)].machines.len(), Own::default);
        agent.reopen();
        agent
    }

    pub fn reopen(&mut self) {
        self.boot = if HAS_JOURNALS {
            self.journal.open(NodeId::Agent(self.index), |_| {})
        } else {
            self.boot + 1
        };
        let count = self.memory.machines.len();
        self.memory = Memory::default();
        self.memory.machines.resize_with(count, Own::default);
    }

    /// The place of an own machine among all.
    fn own(&self, address: u32) -> Option<usize> {
        let owns = self.first..self.first + self.memory.machines.len();
        self.config.machine(address).filter(|place| owns.contains(place))
    }

    fn machine(&mut self, place: usize) -> &mut Own {
        &mut self.memory.machines[place - self.first]
    }

    pub fn tick(&mut self, now: u64, step: &mut Step) {
        let memory = &mut self.memory;
        memory.time = memory.time.max(now);
        let time = memory.time;
        for closed in memory.connections.expire(time, self.config.timers.flow_idle) {
            memory.ranges.closed(closed.n, time);
            step.acts.push(Act::Close(closed.ends));
        }
        memory.inbound.expire(time, self.config.timers.flow_idle);
        let (machines, first) = (&memory.machines, self.first);
        let holds = |place: usize| !machines[place - first].held.is_empty();
        for n in memory.ranges.give_back(time, self.config.timers.range_idle, holds) {
            step.acts.push(Act::Drop(n));
        }
        if !memory.is_known {
            step.to_all(&Message::AgentUp { boot: self.boot });
        }
        for (i, own) in memory.machines.iter_mut().enumerate() {
            if let Some(asked) = own.asked.as_mut().filter(|asked| time - **asked >= self.config.timers.ask_retry) {
                *asked = time;
                let machine = self.config.machines[self.first + i].address;
                step.to_all(&Message::Ask { boot: self.boot, machine, seq: own.seq });
            }
        }
        for n in memory.ranges.returning().take(MOST_RETURNED) {
            step.to_all(&Message::Return { boot: self.boot, n });
        }
    }

    pub fn handle(&mut self, from: NodeId, message: Message, step: &mut Step) -> Result<(), Cause> {
        match (message, from) {
            (Message::Grant { boot, machine, seq, n, vip, start }, NodeId::Replica(from)) => {
                self.is_own_boot(boot)?;
                self.grant(from, (machine, seq), n, (vip, start), step)
            }
            (Message::Denied { boot, machine, seq, .. }, NodeId::Replica(from)) => {
                self.is_own_boot(boot)?;
                self.denied(from, machine, seq, step)
            }
            (Message::Returned { boot, n }, NodeId::Replica(from)) => {
                self.is_own_boot(boot)?;
                if !self.memory.ranges.returned(n) {
                    return late();
                }
                self.memory.hint = from;
                Ok(())
            }
            (Message::AgentKnown { boot }, NodeId::Replica(from)) => {
                self.is_own_boot(boot)?;
                self.memory.is_known = true;
                self.memory.hint = from;
                Ok(())
            }
            (Message::Redirect { side, n, src, sport, dst, dport, opener, server }, NodeId::Mux(_))
                if HAS_REDIRECTS =>
            {
                self.redirect(side, n, (src, sport), (dst, dport), opener, server)
            }
            _ => Err("WrongRole".into()),
        }
    }

    fn is_own_boot(&self, boot: u64) -> Result<(), Cause> {
        if boot == self.boot {
            Ok(())
        } else {
            Err(Cause::with("WrongBoot", self.boot))
        }
    }

    fn grant(
        &mut self,
        from: u8,
        (machine, seq): (u32, u64),
        n: u64,
        (vip, start): (u32, u16),
        step: &mut Step,
    ) -> Result<(), Cause> {
        let Some(place) = self.own(machine) else { return Err("NotMine".into()) };
        let Some((vip, start)) = self.config.range(vip, start) else { return Err("NotMine".into()) };
        if self.config.machines[place].vip != Some(vip) {
            return Err("NotMine".into());
        }
        let time = self.memory.time;
        if let Some(kept) = self.memory.ranges.hold(n, (vip, start), place, time) {
            return Err(Cause::with("OldGrant", kept));
        }
        step.acts.push(Act::Hold(n));
        self.memory.hint = from;
        let own = self.machine(place);
        if own.seq == seq {
            own.asked = None;
        }
        for packet in std::mem::take(&mut own.held) {
            self.held_packet(place, packet, step);
        }
        if !self.machine(place).held.is_empty() {
            self.ask(place, step);
        }
        Ok(())
    }

    /// A held packet meets the rows again; without a port it stays.
    fn held_packet(&mut self, place: usize, packet: Vec<u8>, step: &mut Step) {
        let left = match packets::read(&packet) {
            Ok((key, _)) => self.leave(place, &key, &packet, step),
            Err(fault) => Err(fault.into()),
        };
        match left {
            Ok(true) => {}
            Ok(false) => self.machine(place).held.push_back(packet),
            Err(cause) => step.notes.push(Note::Dropped(cause)),
        }
    }

    /// The next Ask, where none is out.
    fn ask(&mut self, place: usize, step: &mut Step) {
        let (boot, hint, time) = (self.boot, self.memory.hint, self.memory.time);
        let machine = self.config.machines[place].address;
        let own = self.machine(place);
        if own.asked.is_none() && own.seq < u64::MAX {
            own.seq += 1;
            own.asked = Some(time);
            step.reply(hint, &Message::Ask { boot, machine, seq: own.seq });
        }
    }

    fn denied(&mut self, from: u8, machine: u32, seq: u64, step: &mut Step) -> Result<(), Cause> {
        let Some(place) = self.own(machine) else { return late() };
        let own = self.machine(place);
        if own.asked.is_none() || own.seq != seq {
            return late();
        }
        own.asked = None;
        for _ in own.held.drain(..) {
            step.notes.push(Note::Dropped("Denied".into()));
        }
        self.memory.hint = from;
        Ok(())
    }

    fn redirect(
        &mut self,
        side: u8,
        n: u64,
        (src, sport): (u32, u16),
        (dst, dport): (u32, u16),
        opener: u32,
        server: u32,
    ) -> Result<(), Cause> {
        if self.config.machine(opener).is_none() || self.config.machine(server).is_none() {
            return Err("NotMine".into());
        }
        let key = Key { src, dst, sport, dport, proto: TCP };
        let (list, key, machine, peer) = match side {
            0 => (&mut self.memory.connections, key, opener, server),
            _ => (&mut self.memory.inbound, key.reverse(), server, opener),
        };
        let Some(kept) = list.public(&key).filter(|kept| kept.ends.machine == machine) else {
            return Err("NoConnection".into());
        };
        let is_stale = if side == 0 { kept.n != n } else { kept.n > n };
        if is_stale {
            return Err(Cause::with("StaleLease", kept.n));
        }
        kept.peer = Some(peer);
        kept.n = n;
        Ok(())
    }

    /// A datagram with a packet frame.
    pub fn packet(&mut self, from: Who, bytes: &[u8], step: &mut Step) -> Result<(), Cause> {
        match from {
            Who::Node(NodeId::Replica(_)) => Err("WrongRole".into()),
            Who::Node(node) => self.wrapped(node, bytes, step),
            Who::Machine(place) if self.own(self.config.machines[place].address).is_some() => {
                self.from_machine(place, bytes, step)
            }
            Who::Machine(_) | Who::Outside => Err("NotMine".into()),
        }
    }

    fn from_machine(&mut self, place: usize, bytes: &[u8], step: &mut Step) -> Result<(), Cause> {
        let (key, total) = packets::read(bytes)?;
        let packet = &bytes[..total];
        let machine = self.config.machines[place].address;
        if key.src != machine {
            return Err("BadSource".into());
        }
        if self.leave(place, &key, packet, step)? {
            return Ok(());
        }
        let own = self.machine(place);
        if own.held.len() == MOST_HELD {
            return Err("QueueFull".into());
        }
        own.held.push_back(packet.to_vec());
        step.notes.push(Note::Queued(machine, own.held.len()));
        self.ask(place, step);
        Ok(())
    }

    /// Whether the machine's packet had a connection, an entry or a port to leave by.
    fn leave(&mut self, place: usize, key: &Key, packet: &[u8], step: &mut Step) -> Result<bool, Cause> {
        let time = self.memory.time;
        if let Some(used) = self.memory.connections.private_used(key, time) {
            let used = *used;
            self.send_out(&used, packet, step)?;
            if packets::is_reset(packet) {
                self.close(key, step);
            }
            return Ok(true);
        }
        if let Some(used) = self.memory.inbound.private_used(key, time) {
            let used = *used;
            self.send_out(&used, packet, step)?;
            return Ok(true);
        }
        let Some(vip) = self.config.machines[place].vip else { return Err("NoSnat".into()) };
        if self.memory.connections.len() == MOST_CONNECTIONS {
            return Err("TableFull".into());
        }
        let vip = self.config.vips[vip].address;
        let connections = &self.memory.connections;
        let is_used = |port: u16| connections.has_public(&Key { src: vip, sport: port, ..*key });
        let Some((n, port)) = self.memory.ranges.choose(place, is_used) else { return Ok(false) };
        let opened = Connection::of(key, vip, port, n, time);
        self.memory.connections.open(opened);
        self.memory.ranges.opened(n);
        step.acts.push(Act::Open(opened.ends));
        self.send_out(&opened, packet, step)?;
        if packets::is_reset(packet) {
            self.close(key, step);
        }
        Ok(true)
    }

    fn close(&mut self, private: &Key, step: &mut Step) {
        if let Some(closed) = self.memory.connections.close(private) {
            self.memory.ranges.closed(closed.n, self.memory.time);
            step.acts.push(Act::Close(closed.ends));
        }
    }

    /// The packet leaves by a connection or an inbound entry.
    fn send_out(&mut self, by: &Connection, packet: &[u8], step: &mut Step) -> Result<(), Cause> {
        let edit = |packet: &mut [u8]| packets::translate_source(packet, by.ends.vip, by.ends.port);
        let frame = frame(packet, edit);
        let Some(peer) = by.peer else {
            step.sends.push((To::Outside(self.config.router), frame));
            return Ok(());
        };
        let wrapped = packets::wrap(by.ends.machine, peer, &frame[1..], 0)?;
        if let Some(place) = self.config.machine(peer) {
            let agent = NodeId::Agent(self.config.machines[place].agent);
            step.sends.push((To::Node(agent), wrapped.into()));
        }
        Ok(())
    }

    /// A packet in a packet, of a mux or an agent.
    fn wrapped(&mut self, from: NodeId, bytes: &[u8], step: &mut Step) -> Result<(), Cause> {
        let outer = packets::unwrap(bytes)?;
        let Some(place) = self.own(outer.dst) else { return Err("NotMine".into()) };
        let is_sender = match from {
            NodeId::Mux(mux) => self.config.muxes[usize::from(mux)].0 == outer.src,
            NodeId::Agent(agent) => {
                let sender = self.config.machine(outer.src);
                HAS_REDIRECTS && sender.is_some_and(|sender| self.config.machines[sender].agent == agent)
            }
            NodeId::Replica(_) => false,
        };
        if !is_sender {
            return Err("BadSender".into());
        }
        let (key, total) = packets::read(outer.inner)?;
        let packet = &outer.inner[..total];
        let time = self.memory.time;
        if let Some(connection) = self.memory.connections.public(&key.reverse()) {
            if connection.ends.machine != outer.dst {
                return Err("WrongMachine".into());
            }
            connection.last = time;
            let (port, private) = (connection.ends.sport, connection.private());
            self.hand(place, port, packet, step);
            if packets::is_reset(packet) {
                self.close(&private, step);
            }
            return Ok(());
        }
        let Some(port) = self.config.served(place, key.dst, key.proto, key.dport) else {
            return Err("NoConnection".into());
        };
        let clears = matches!(from, NodeId::Mux(_)) && packets::is_first(packet);
        self.enter(outer.dst, port, &key, clears)?;
        self.hand(place, port, packet, step);
        Ok(())
    }

    /// The inbound entry of a client's packet to a machine's port is made or used.
    fn enter(&mut self, machine: u32, port: u16, key: &Key, clears: bool) -> Result<(), Cause> {
        let memory = &mut self.memory;
        let private = Key { src: machine, sport: port, dst: key.src, dport: key.sport, proto: key.proto };
        if memory.connections.has_private(&private) {
            return Err("KeyInUse".into());
        }
        let public = key.reverse();
        if let Some(other) = memory.inbound.public(&public).filter(|entry| entry.ends.machine != machine) {
            let private = other.private();
            memory.inbound.close(&private);
        }
        if let Some(entry) = memory.inbound.public(&public) {
            entry.last = memory.time;
            if clears {
                entry.peer = None;
            }
            return Ok(());
        }
        if memory.inbound.len() == MOST_CONNECTIONS {
            return Err("TableFull".into());
        }
        memory.inbound.open(Connection::of(&private, key.dst, key.dport, 0, memory.time));
        Ok(())
    }

    fn hand(&mut self, place: usize, port: u16, packet: &[u8], step: &mut Step) {
        let machine = &self.config.machines[place];
        let frame = frame(packet, |packet| packets::translate_destination(packet, machine.address, port, 0));
        step.acts.push(Act::Hand(machine.address, frame.clone()));
        step.sends.push((To::Outside(machine.attach), frame));
    }
}
