//! A replica: what it makes of leases, and what it says to muxes and agents.
use crate::config::NodeId;
use crate::leases::{Effect, Last, Outcome, Phase, Row};
use crate::manager::{Acknowledged, Manager};
use crate::messages::{Command, Entry, Message, Value};
use crate::step::{Act, Cause, Step, late};

const MOST_COMMANDS: usize = 16;
const MOST_PUSHED: usize = 64;
const MOST_QUEUED: usize = 4096;

impl Manager<'_> {
    /// The value joins the log, and its commands do what they do.
    pub fn learn(&mut self, ballot: u64, value: Value, step: &mut Step) -> Vec<Effect> {
        let effects = self.keep(Entry::Learn { ballot, value });
        for effect in &effects {
            step.acts.extend(match effect {
                Effect::Reserved(row) => Some(Act::Reserve {
                    n: row.n,
                    vip: self.config.vips[row.vip].address,
                    start: row.start,
                    machine: self.config.machines[row.machine].address,
                }),
                Effect::Granted(row) => Some(Act::Grant(row.n)),
                Effect::Released(Row { n, .. }) | Effect::Cleared(n) => Some(Act::Free(*n)),
                Effect::Freed(n) => Some(Act::Freed(*n)),
                Effect::Refused { .. } | Effect::Known { .. } => None,
            });
        }
        effects
    }

    fn grant(&self, row: &Row) -> Message {
        Message::Grant {
            boot: row.boot,
            machine: self.config.machines[row.machine].address,
            seq: row.seq,
            n: row.n,
            vip: self.config.vips[row.vip].address,
            start: row.start,
        }
    }

    fn denied(&self, machine: usize, last: Last) -> Option<Message> {
        let (reason, number) = match last.outcome {
            Outcome::Reserved(_) => return None,
            Outcome::Exhausted(place) => (1, place),
            Outcome::AtLimit(count) => (2, count),
        };
        let machine = self.config.machines[machine].address;
        Some(Message::Denied { boot: last.boot, machine, seq: last.seq, reason, number })
    }

    /// The command that brings a mux of this boot in line with the row.
    fn command_of(&self, row: &Row, boot: u64) -> Message {
        let (epoch, vip) = (self.memory.ballot, self.config.vips[row.vip].address);
        match row.phase {
            Phase::Freeing => Message::Unprogram { epoch, boot, n: row.n, vip, start: row.start },
            _ => {
                let machine = self.config.machines[row.machine].address;
                Message::Program { epoch, boot, n: row.n, vip, start: row.start, machine }
            }
        }
    }

    fn to_muxes(&self, row: &Row, step: &mut Step) {
        for (i, mux) in self.memory.muxes.iter().enumerate().filter(|(_, mux)| mux.boot != 0) {
            step.send(NodeId::Mux(i as u16), &self.command_of(row, mux.boot));
        }
    }

    /// What a primary says of what a value did.
    pub fn tell(&mut self, effects: &[Effect], step: &mut Step) {
        for effect in effects {
            match effect {
                Effect::Reserved(row) => {
                    if let Some(row) = self.disk.table.row(row.n).filter(|row| row.phase == Phase::BeingLeased) {
                        self.to_muxes(row, step);
                    }
                }
                Effect::Refused { machine, last } => {
                    if let Some(denied) = self.denied(*machine, *last) {
                        step.send(NodeId::Agent(self.config.machines[*machine].agent), &denied);
                    }
                }
                Effect::Granted(row) => step.send(NodeId::Agent(row.agent), &self.grant(row)),
                Effect::Released(row) => {
                    step.send(NodeId::Agent(row.agent), &Message::Returned { boot: row.boot, n: row.n });
                    self.to_muxes(row, step);
                }
                Effect::Known { agent, boot } => {
                    step.send(NodeId::Agent(*agent), &Message::AgentKnown { boot: *boot });
                }
                Effect::Freed(n) => {
                    self.memory.acknowledged.remove(n);
                }
                Effect::Cleared(_) => {}
            }
        }
    }

    fn is_near(&self, mux: usize) -> bool {
        let heard = &self.memory.muxes[mux];
        heard.boot != 0 && self.memory.time - heard.at <= self.config.timers.mux_silent
    }

    fn acknowledged(&self, n: u64, mux: usize) -> Acknowledged {
        self.memory.acknowledged.get(&n).map_or(Acknowledged::default(), |muxes| muxes[mux].clone())
    }

    /// What the near muxes haven't acknowledged is said again.
    pub fn push(&self, step: &mut Step) {
        let near: Vec<usize> = (0..self.memory.muxes.len()).filter(|mux| self.is_near(*mux)).collect();
        let mut left = MOST_PUSHED;
        if near.is_empty() {
            return;
        }
        for row in self.disk.table.rows() {
            let muxes = self.memory.acknowledged.get(&row.n);
            for &mux in &near {
                let boot = self.memory.muxes[mux].boot;
                let known = muxes.map_or(0, |muxes| match row.phase {
                    Phase::Freeing => muxes[mux].unprogrammed,
                    _ => muxes[mux].programmed,
                });
                if known == boot {
                    continue;
                }
                if left == 0 {
                    return;
                }
                left -= 1;
                step.send(NodeId::Mux(mux as u16), &self.command_of(row, boot));
            }
        }
    }

    /// The muxes that have the row, where each near one has and at least one.
    fn granted(&self, n: u64) -> Option<Vec<(u16, u64)>> {
        let mut named = Vec::new();
        for (i, mux) in self.memory.muxes.iter().enumerate() {
            if mux.boot != 0 && self.acknowledged(n, i).programmed == mux.boot {
                named.push((i as u16, mux.boot));
            } else if self.is_near(i) {
                return None;
            }
        }
        if named.is_empty() { None } else { Some(named) }
    }

    fn is_unprogrammed(&self, n: u64) -> bool {
        let Some(muxes) = self.memory.acknowledged.get(&n) else { return false };
        muxes.iter().all(|mux| mux.unprogrammed != 0)
    }

    pub fn propose(&mut self, step: &mut Step) {
        if !self.is_primary() || self.memory.outstanding.is_some() {
            return;
        }
        let table = &self.disk.table;
        let granted = table.being_leased().filter_map(|n| self.granted(n).map(|muxes| Command::Granted { n, muxes }));
        let freed = table.freeing().filter(|n| self.is_unprogrammed(*n)).map(|n| Command::Freed { n });
        let mut commands: Vec<Command> = granted.chain(freed).take(MOST_COMMANDS).collect();
        while commands.len() < MOST_COMMANDS {
            let Some(command) = self.memory.queue.pop_front() else { break };
            self.memory.queued.remove(&command);
            commands.push(command);
        }
        if !commands.is_empty() {
            self.offer(commands.into(), step);
        }
    }

    pub fn from_mux(&mut self, mux: usize, message: Message, step: &mut Step) -> Result<(), Cause> {
        match message {
            Message::MuxHello { boot, epoch } => {
                if boot < self.memory.muxes[mux].boot {
                    return late();
                }
                self.hear(mux, boot);
                self.memory.see(epoch);
            }
            Message::MuxRefuse { boot, kept, .. } => {
                self.hear(mux, boot);
                self.memory.see(kept);
            }
            Message::Programmed { epoch, boot, n } => {
                let said = &mut self.acknowledge(mux, epoch, boot, n)?.programmed;
                *said = boot.max(*said);
            }
            Message::Unprogrammed { epoch, boot, n } => {
                let said = &mut self.acknowledge(mux, epoch, boot, n)?.unprogrammed;
                *said = boot.max(*said);
            }
            _ => return Err("WrongRole".into()),
        }
        self.propose(step);
        Ok(())
    }

    fn hear(&mut self, mux: usize, boot: u64) {
        let heard = &mut self.memory.muxes[mux];
        heard.boot = heard.boot.max(boot);
        heard.at = self.memory.time;
    }

    fn acknowledge(&mut self, mux: usize, epoch: u64, boot: u64, n: u64) -> Result<&mut Acknowledged, Cause> {
        if !self.is_primary() || epoch != self.memory.ballot || self.disk.table.row(n).is_none() {
            return late();
        }
        self.hear(mux, boot);
        let count = self.memory.muxes.len();
        let muxes = self.memory.acknowledged.entry(n).or_insert_with(|| vec![Acknowledged::default(); count]);
        Ok(&mut muxes[mux])
    }

    pub fn from_agent(&mut self, agent: u16, message: Message, step: &mut Step) -> Result<(), Cause> {
        if !matches!(message, Message::Ask { .. } | Message::Return { .. } | Message::AgentUp { .. }) {
            return Err("WrongRole".into());
        }
        if !self.is_primary() {
            return Err("NotPrimary".into());
        }
        match message {
            Message::Ask { boot, machine, seq } => self.ask(agent, boot, machine, seq, step)?,
            Message::Return { boot, n } => self.give_back(agent, boot, n, step)?,
            Message::AgentUp { boot } => self.agent_up(agent, boot, step)?,
            _ => {}
        }
        self.propose(step);
        Ok(())
    }

    fn ask(&mut self, agent: u16, boot: u64, machine: u32, seq: u64, step: &mut Step) -> Result<(), Cause> {
        let table = &self.disk.table;
        let own = self.config.machine(machine).filter(|&place| {
            let own = &self.config.machines[place];
            own.agent == agent && own.vip.is_some()
        });
        let Some(place) = own else { return Err("NotMine".into()) };
        if boot < table.known(agent) {
            return late();
        }
        let Some(last) = table.last(place).filter(|last| (last.boot, last.seq) >= (boot, seq)) else {
            return self.enqueue(Command::Reserve { agent, boot, machine, seq });
        };
        if (last.boot, last.seq) > (boot, seq) {
            return late();
        }
        if let Some(denied) = self.denied(place, last) {
            step.send(NodeId::Agent(agent), &denied);
            return Ok(());
        }
        let Outcome::Reserved(n) = last.outcome else { return Ok(()) };
        match table.row(n) {
            Some(Row { phase: Phase::BeingLeased, .. }) => Err("Waiting".into()),
            Some(row @ Row { phase: Phase::Leased, .. }) => {
                step.send(NodeId::Agent(agent), &self.grant(row));
                Ok(())
            }
            _ => late(),
        }
    }

    fn give_back(&mut self, agent: u16, boot: u64, n: u64, step: &mut Step) -> Result<(), Cause> {
        if n == 0 || n > 16 * self.length() {
            return Err("Unknown".into());
        }
        match self.disk.table.row(n) {
            Some(row) if (row.agent, row.boot) != (agent, boot) => return Err("NotMine".into()),
            Some(row) if row.phase != Phase::Freeing => return self.enqueue(Command::Release { n }),
            _ => step.send(NodeId::Agent(agent), &Message::Returned { boot, n }),
        }
        Ok(())
    }

    fn agent_up(&mut self, agent: u16, boot: u64, step: &mut Step) -> Result<(), Cause> {
        let known = self.disk.table.known(agent);
        if boot < known {
            return late();
        }
        if boot > known {
            return self.enqueue(Command::Up { agent, boot });
        }
        step.send(NodeId::Agent(agent), &Message::AgentKnown { boot });
        Ok(())
    }

    fn enqueue(&mut self, command: Command) -> Result<(), Cause> {
        let memory = &mut self.memory;
        let is_outstanding = memory.outstanding.as_ref().is_some_and(|value| value.contains(&command));
        if is_outstanding || memory.queued.contains(&command) {
            return Err("Waiting".into());
        }
        if memory.queue.len() >= MOST_QUEUED {
            return Err("QueueFull".into());
        }
        memory.queued.insert(command.clone());
        memory.queue.push_back(command);
        Ok(())
    }
}
