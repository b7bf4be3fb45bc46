//! A mux: rows of ranges, flows of endpoints, and the packets that go by them.
use crate::config::{Config, NodeId, Who};
use crate::flows::Flows;
use crate::journal::Journal;
use crate::messages::{Entry, Message, encode};
use crate::packets::{self, TCP};
use crate::step::{Cause, Step, To};
use crate::{HAS_JOURNALS, HAS_REDIRECTS};
use std::collections::HashMap;

struct Row {
    kept: u64,
    machine: Option<usize>,
}

/// What its entries come to.
struct Disk {
    boot: u64,
    epoch: u64,
}

pub struct Mux<'c> {
    config: &'c Config,
    index: u16,
    journal: Journal,
    disk: Disk,
    time: u64,
    rows: HashMap<(usize, u16), Row>,
    flows: Flows,
}

impl<'c> Mux<'c> {
    pub fn new(config: &'c Config, index: u16) -> Mux<'c> {
        let (journal, disk) = (Journal::new(), Disk { boot: 0, epoch: 0 });
        let mut mux = Mux { config, index, journal, disk, time: 0, rows: HashMap::new(), flows: Flows::default() };
        mux.reopen();
        mux
    }

    pub fn reopen(&mut self) {
        if HAS_JOURNALS {
            self.disk.epoch = 0;
            self.disk.boot = self.journal.open(NodeId::Mux(self.index), |entry| {
                if let Entry::Epoch { epoch } = entry {
                    self.disk.epoch = self.disk.epoch.max(epoch);
                }
            });
        } else {
            self.disk.boot += 1;
        }
        self.time = 0;
        self.rows.clear();
        self.flows = Flows::default();
    }

    pub fn tick(&mut self, now: u64, step: &mut Step) {
        self.time = self.time.max(now);
        self.flows.expire(self.time, self.config.timers.flow_idle);
        step.to_all(&Message::MuxHello { boot: self.disk.boot, epoch: self.disk.epoch });
    }

    pub fn handle(&mut self, from: NodeId, message: Message, step: &mut Step) -> Result<(), Cause> {
        match (message, from) {
            (Message::Program { epoch, boot, n, vip, start, machine }, NodeId::Replica(from)) => {
                self.admit(from, epoch, boot, step)?;
                self.program(n, vip, start, machine)?;
                step.reply(from, &Message::Programmed { epoch, boot, n });
            }
            (Message::Unprogram { epoch, boot, n, vip, start }, NodeId::Replica(from)) => {
                self.admit(from, epoch, boot, step)?;
                self.unprogram(n, vip, start)?;
                step.reply(from, &Message::Unprogrammed { epoch, boot, n });
            }
            (Message::RedirectAsk { src, sport, dst, dport, machine }, NodeId::Mux(_)) if HAS_REDIRECTS => {
                self.redirect((src, sport), (dst, dport), machine, step)?;
            }
            _ => return Err("WrongRole".into()),
        }
        Ok(())
    }

    fn admit(&mut self, from: u8, epoch: u64, boot: u64, step: &mut Step) -> Result<(), Cause> {
        let (own, kept) = (self.disk.boot, self.disk.epoch);
        if boot == own && epoch >= kept {
            if HAS_JOURNALS && epoch > kept {
                self.journal.append(&Entry::Epoch { epoch });
            }
            self.disk.epoch = epoch;
            return Ok(());
        }
        step.reply(from, &Message::MuxRefuse { epoch, boot: own, kept });
        Err(if boot != own {
            Cause::with("WrongBoot", own)
        } else {
            Cause::with("OldEpoch", kept)
        })
    }

    fn program(&mut self, n: u64, vip: u32, start: u16, machine: u32) -> Result<(), Cause> {
        let Some((vip, start)) = self.config.range(vip, start) else { return Err("NotMine".into()) };
        let own = self.config.machine(machine).filter(|&place| self.config.machines[place].vip == Some(vip));
        let Some(machine) = own else { return Err("NotMine".into()) };
        let row = self.rows.entry((vip, start)).or_insert(Row { kept: 0, machine: None });
        if n > row.kept {
            *row = Row { kept: n, machine: Some(machine) };
        } else if n < row.kept || row.machine.is_none() {
            return Err(Cause::with("OldNumber", row.kept));
        }
        Ok(())
    }

    fn unprogram(&mut self, n: u64, vip: u32, start: u16) -> Result<(), Cause> {
        let Some(range) = self.config.range(vip, start) else { return Err("NotMine".into()) };
        let row = self.rows.entry(range).or_insert(Row { kept: 0, machine: None });
        if n >= row.kept {
            *row = Row { kept: n, machine: None };
        }
        Ok(())
    }

    fn redirect(
        &self,
        (src, sport): (u32, u16),
        (dst, dport): (u32, u16),
        machine: u32,
        step: &mut Step,
    ) -> Result<(), Cause> {
        let server = self.config.machine(machine);
        let (Some(place), Some(range)) = (server, self.config.range(src, sport)) else {
            return Err("NotMine".into());
        };
        let row = self.rows.get(&range).and_then(|row| row.machine.map(|opener| (row.kept, opener)));
        let Some((n, opener)) = row else { return Err("NoLease".into()) };
        let address = self.config.machines[opener].address;
        for (side, to) in [(0, opener), (1, place)] {
            let told = Message::Redirect { side, n, src, sport, dst, dport, opener: address, server: machine };
            step.send(NodeId::Agent(self.config.machines[to].agent), &told);
        }
        Ok(())
    }

    pub fn packet(&mut self, from: Who, bytes: &[u8], step: &mut Step) -> Result<(), Cause> {
        match from {
            Who::Node(_) => return Err("WrongRole".into()),
            Who::Machine(_) => return Err("NotMine".into()),
            Who::Outside => {}
        }
        let (key, total) = packets::read(bytes)?;
        let packet = &bytes[..total];
        let Some(vip) = self.config.vip(key.dst) else { return Err("NotVip".into()) };
        let endpoint = self.config.endpoint(vip, key.proto, key.dport);
        let machine = if let Some(endpoint) = endpoint {
            self.flows
                .machine(&key)
                .unwrap_or_else(|| endpoint.members[packets::hash(&key) as usize % endpoint.members.len()].machine)
        } else {
            let Some(range) = self.config.range(key.dst, key.dport) else { return Err("NoEndpoint".into()) };
            let Some(machine) = self.rows.get(&range).and_then(|row| row.machine) else {
                return Err("NoLease".into());
            };
            machine
        };
        let own = self.config.muxes[usize::from(self.index)].0;
        let target = &self.config.machines[machine];
        let frame = packets::wrap(own, target.address, packet, 1)?;
        step.sends.push((To::Node(NodeId::Agent(target.agent)), frame.into()));
        if endpoint.is_some() {
            let count = self.flows.note(key, packets::is_first(packet), machine, self.time);
            if HAS_REDIRECTS && key.proto == TCP && count == 3 && self.config.range(key.src, key.sport).is_some() {
                let (src, sport, dst, dport) = (key.src, key.sport, key.dst, key.dport);
                let ask = encode(&Message::RedirectAsk { src, sport, dst, dport, machine: target.address });
                let mux = packets::hash(&key) as usize % self.config.muxes.len();
                step.sends.push((To::Node(NodeId::Mux(mux as u16)), ask));
            }
        }
        Ok(())
    }
}
