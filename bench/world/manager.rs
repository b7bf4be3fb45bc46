//! A replica: its part in the agreement on the log.
use crate::HAS_JOURNALS;
use crate::config::{Config, NodeId};
use crate::journal::Journal;
use crate::leases::{Effect, Table};
use crate::messages::{Command, Entry, Message, Value};
use crate::step::{Cause, Step, late};
use std::collections::{HashMap, HashSet, VecDeque};

/// What its entries come to.
pub struct Disk {
    pub promise: u64,
    pub vote: Option<(u64, Value)>,
    pub log: Vec<(u64, Value)>,
    /// The fold of the log's values.
    pub table: Table,
}

/// The Promises of a candidate.
#[derive(Default)]
pub struct Tally {
    from: [bool; 5],
    greatest: u64,
    teller: u8,
    vote: Option<(u64, Value)>,
}

pub enum Stage {
    Follower,
    Candidate(Tally),
    Catching { sought: u64, pending: Option<Value> },
    Inheriting,
    Primary,
}

#[derive(Clone, Default)]
pub struct Heard {
    pub boot: u64,
    pub at: u64,
}

/// The greatest boots in which a mux said Programmed and Unprogrammed of a row.
#[derive(Clone, Default)]
pub struct Acknowledged {
    pub programmed: u64,
    pub unprogrammed: u64,
}

pub struct Memory {
    pub time: u64,
    pub heard: u64,
    pub stage: Stage,
    pub ballot: u64,
    pub seen: u64,
    goal: u64,
    guide: u8,
    pub muxes: Vec<Heard>,
    pub acknowledged: HashMap<u64, Vec<Acknowledged>>,
    pub queue: VecDeque<Command>,
    /// The same commands, to be found.
    pub queued: HashSet<Command>,
    pub outstanding: Option<Value>,
    accepted: [bool; 5],
}

pub struct Manager<'c> {
    pub config: &'c Config,
    pub index: u8,
    journal: Journal,
    pub disk: Disk,
    pub memory: Memory,
}

impl Disk {
    fn new(config: &Config) -> Disk {
        Disk { promise: 0, vote: None, log: Vec::new(), table: Table::new(config) }
    }

    /// The entry is added; the answer is what a value that it adds to the log did.
    fn fold(&mut self, config: &Config, entry: Entry) -> Vec<Effect> {
        match entry {
            Entry::Promise { ballot } => self.promise = self.promise.max(ballot),
            Entry::Vote { ballot, value } => {
                self.promise = self.promise.max(ballot);
                self.vote = Some((ballot, value));
            }
            Entry::Learn { ballot, value } => {
                let effects = self.table.apply(config, self.log.len() as u64, &value);
                self.promise = self.promise.max(ballot);
                self.vote = None;
                self.log.push((ballot, value));
                return effects;
            }
            Entry::Boot { .. } | Entry::Epoch { .. } => {}
        }
        Vec::new()
    }
}

impl Memory {
    fn new(config: &Config) -> Memory {
        Memory {
            time: 0,
            heard: 0,
            stage: Stage::Follower,
            ballot: 0,
            seen: 0,
            goal: 0,
            guide: 0,
            muxes: vec![Heard::default(); config.muxes.len()],
            acknowledged: HashMap::new(),
            queue: VecDeque::new(),
            queued: HashSet::new(),
            outstanding: None,
            accepted: [false; 5],
        }
    }

    pub fn step_down(&mut self) {
        self.stage = Stage::Follower;
        self.acknowledged.clear();
        self.queue.clear();
        self.queued.clear();
        self.outstanding = None;
    }

    /// A number is seen; above the own ballot it ends a candidacy or a lead.
    pub fn see(&mut self, number: u64) {
        self.seen = self.seen.max(number);
        if number > self.ballot && !matches!(self.stage, Stage::Follower) {
            self.step_down();
        }
    }

    fn is_primary(&self) -> bool {
        matches!(self.stage, Stage::Primary)
    }
}

fn campaign(above: u64, index: u8) -> Option<u64> {
    (above / 5 + 1).checked_mul(5)?.checked_add(u64::from(index))
}

impl<'c> Manager<'c> {
    pub fn new(config: &'c Config, index: u8) -> Manager<'c> {
        let (journal, disk, memory) = (Journal::new(), Disk::new(config), Memory::new(config));
        let mut manager = Manager { config, index, journal, disk, memory };
        manager.reopen();
        manager
    }

    pub fn reopen(&mut self) {
        self.memory = Memory::new(self.config);
        if HAS_JOURNALS {
            self.disk = Disk::new(self.config);
            self.journal.open(NodeId::Replica(self.index), |entry| {
                self.disk.fold(self.config, entry);
            });
        }
    }

    /// The entry is durable.
    pub fn keep(&mut self, entry: Entry) -> Vec<Effect> {
        if HAS_JOURNALS {
            self.journal.append(&entry);
        }
        self.disk.fold(self.config, entry)
    }

    pub fn length(&self) -> u64 {
        self.disk.log.len() as u64
    }

    pub fn is_primary(&self) -> bool {
        self.memory.is_primary()
    }

    pub fn tick(&mut self, now: u64, step: &mut Step) {
        let memory = &mut self.memory;
        memory.time = memory.time.max(now);
        if memory.is_primary() {
            self.lead(step);
        } else if memory.time - memory.heard >= self.config.timers.lead_silent {
            self.run_for_election(step);
        }
    }

    fn run_for_election(&mut self, step: &mut Step) {
        let Some(ballot) = campaign(self.disk.promise.max(self.memory.seen), self.index) else { return };
        self.memory.step_down();
        self.memory.ballot = ballot;
        self.memory.stage = Stage::Candidate(Tally::default());
        self.memory.heard = self.memory.time;
        self.keep(Entry::Promise { ballot });
        step.to_all(&Message::Prepare { ballot });
    }

    fn lead(&mut self, step: &mut Step) {
        let ballot = self.memory.ballot;
        step.to_others(self.index, &Message::Lead { ballot, length: self.length() });
        if let Some(value) = self.memory.outstanding.clone() {
            step.to_all(&Message::Accept { ballot, slot: self.length(), value });
        }
        self.push(step);
        self.propose(step);
    }

    pub fn handle(&mut self, from: NodeId, message: Message, step: &mut Step) -> Result<(), Cause> {
        match from {
            NodeId::Replica(from) => self.from_replica(from, message, step),
            NodeId::Mux(mux) => self.from_mux(usize::from(mux), message, step),
            NodeId::Agent(agent) => self.from_agent(agent, message, step),
        }
    }

    fn from_replica(&mut self, from: u8, message: Message, step: &mut Step) -> Result<(), Cause> {
        match message {
            Message::Prepare { ballot } => self.prepare(from, ballot, step),
            Message::Promise { ballot, length, vote } => return self.promise(from, ballot, length, vote, step),
            Message::Accept { ballot, slot, value } => return self.accept(from, ballot, slot, value, step),
            Message::Accepted { ballot, slot } => return self.accepted(from, ballot, slot, step),
            Message::Refuse { ballot, promised } => return self.refuse(ballot, promised),
            Message::Chosen { slot, ballot, value } => return self.chosen(from, slot, ballot, value, step),
            Message::Fetch { slot } => return self.fetch(from, slot, step),
            Message::Lead { ballot, length } => self.lead_of(from, ballot, length, step),
            _ => return Err("WrongRole".into()),
        }
        Ok(())
    }

    fn prepare(&mut self, from: u8, ballot: u64, step: &mut Step) {
        let promised = self.disk.promise;
        if ballot < promised {
            return step.reply(from, &Message::Refuse { ballot, promised });
        }
        if ballot > promised {
            self.keep(Entry::Promise { ballot });
            self.memory.step_down();
            self.memory.heard = self.memory.time;
        }
        let vote = self.disk.vote.clone();
        step.reply(from, &Message::Promise { ballot, length: self.length(), vote });
    }

    fn promise(
        &mut self,
        from: u8,
        ballot: u64,
        length: u64,
        vote: Option<(u64, Value)>,
        step: &mut Step,
    ) -> Result<(), Cause> {
        let own = self.length();
        let Memory { stage: Stage::Candidate(tally), ballot: running, .. } = &mut self.memory else { return late() };
        if ballot != *running || tally.from[usize::from(from)] {
            return late();
        }
        let is_first = !tally.from.contains(&true);
        tally.from[usize::from(from)] = true;
        let vote_of = |vote: &Option<(u64, Value)>| vote.as_ref().map_or(0, |vote| vote.0);
        if is_first || length > tally.greatest {
            (tally.greatest, tally.teller, tally.vote) = (length, from, vote);
        } else if length == tally.greatest {
            tally.teller = tally.teller.min(from);
            if vote_of(&vote) > vote_of(&tally.vote) {
                tally.vote = vote;
            }
        }
        if tally.from.iter().filter(|is_in| **is_in).count() < 3 {
            return Ok(());
        }
        let (sought, teller) = (tally.greatest, tally.teller);
        let pending = tally.vote.take().map(|vote| vote.1).filter(|_| own <= sought);
        if own < sought {
            self.memory.stage = Stage::Catching { sought, pending };
            self.ask_for(sought, teller, step);
        } else {
            self.arrive(pending, step);
        }
        Ok(())
    }

    /// Some replica has a log of this length: it is the goal, and is asked for what comes next.
    fn ask_for(&mut self, goal: u64, guide: u8, step: &mut Step) {
        (self.memory.goal, self.memory.guide) = (goal, guide);
        step.reply(guide, &Message::Fetch { slot: self.length() });
    }

    fn arrive(&mut self, pending: Option<Value>, step: &mut Step) {
        match pending {
            Some(value) => {
                self.memory.stage = Stage::Inheriting;
                self.offer(value, step);
            }
            None => self.memory.stage = Stage::Primary,
        }
    }

    /// The value stands outstanding at the log's end.
    pub fn offer(&mut self, value: Value, step: &mut Step) {
        self.memory.outstanding = Some(value.clone());
        self.memory.accepted = [false; 5];
        step.to_all(&Message::Accept { ballot: self.memory.ballot, slot: self.length(), value });
    }

    fn accept(&mut self, from: u8, ballot: u64, slot: u64, value: Value, step: &mut Step) -> Result<(), Cause> {
        let promised = self.disk.promise;
        if ballot < promised {
            step.reply(from, &Message::Refuse { ballot, promised });
            return Ok(());
        }
        if slot < self.length() {
            return late();
        }
        if slot > self.length() {
            self.ask_for(slot, from, step);
            return Ok(());
        }
        if !self.disk.vote.as_ref().is_some_and(|vote| vote.0 == ballot && vote.1 == value) {
            self.keep(Entry::Vote { ballot, value });
            if self.memory.ballot < ballot {
                self.memory.step_down();
            }
            self.memory.heard = self.memory.time;
        }
        step.reply(from, &Message::Accepted { ballot, slot });
        Ok(())
    }

    fn accepted(&mut self, from: u8, ballot: u64, slot: u64, step: &mut Step) -> Result<(), Cause> {
        let length = self.length();
        let memory = &mut self.memory;
        let leads = matches!(memory.stage, Stage::Inheriting | Stage::Primary);
        let is_new = !memory.accepted[usize::from(from)];
        let Some(value) = memory.outstanding.clone().filter(|_| leads && is_new) else { return late() };
        if slot != length || ballot != memory.ballot {
            return late();
        }
        memory.accepted[usize::from(from)] = true;
        if memory.accepted.iter().filter(|is_in| **is_in).count() < 3 {
            return Ok(());
        }
        memory.stage = Stage::Primary;
        memory.outstanding = None;
        step.to_others(self.index, &Message::Chosen { slot, ballot, value: value.clone() });
        let effects = self.learn(ballot, value, step);
        self.tell(&effects, step);
        self.propose(step);
        Ok(())
    }

    fn refuse(&mut self, ballot: u64, promised: u64) -> Result<(), Cause> {
        let memory = &mut self.memory;
        if matches!(memory.stage, Stage::Follower) || ballot != memory.ballot || promised <= ballot {
            return late();
        }
        memory.see(promised);
        memory.heard = memory.time;
        Ok(())
    }

    fn chosen(&mut self, from: u8, slot: u64, ballot: u64, value: Value, step: &mut Step) -> Result<(), Cause> {
        if slot < self.length() {
            return late();
        }
        if slot > self.length() {
            self.ask_for(slot, from, step);
            return Ok(());
        }
        self.learn(ballot, value, step);
        self.memory.heard = self.memory.time;
        let leads = matches!(self.memory.stage, Stage::Inheriting | Stage::Primary);
        if leads || self.memory.ballot < self.disk.promise {
            self.memory.step_down();
        }
        let length = self.length();
        if let Stage::Catching { sought, pending } = &mut self.memory.stage {
            if *sought == length {
                let pending = pending.take();
                self.arrive(pending, step);
                return Ok(());
            }
        }
        if length < self.memory.goal {
            step.reply(self.memory.guide, &Message::Fetch { slot: length });
        }
        Ok(())
    }

    fn fetch(&mut self, from: u8, slot: u64, step: &mut Step) -> Result<(), Cause> {
        let Some((ballot, value)) = usize::try_from(slot).ok().and_then(|slot| self.disk.log.get(slot)) else {
            return late();
        };
        step.reply(from, &Message::Chosen { slot, ballot: *ballot, value: value.clone() });
        Ok(())
    }

    fn lead_of(&mut self, from: u8, ballot: u64, length: u64, step: &mut Step) {
        let promised = self.disk.promise;
        if ballot < promised {
            return step.reply(from, &Message::Refuse { ballot, promised });
        }
        self.memory.heard = self.memory.time;
        self.memory.seen = self.memory.seen.max(ballot);
        if length > self.length() {
            self.ask_for(length, from, step);
        }
    }
}
