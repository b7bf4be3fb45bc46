//! The lease table: what the commands of a log do.
use crate::config::Config;
use crate::messages::Command;
use std::collections::{BTreeMap, BTreeSet};

#[derive(Clone, Copy, PartialEq, Eq)]
pub enum Phase {
    BeingLeased,
    Leased,
    Freeing,
}

/// `machine` and `vip` are places in the configuration's lists.
#[derive(Clone, Copy)]
pub struct Row {
    pub n: u64,
    pub vip: usize,
    pub start: u16,
    pub machine: usize,
    pub agent: u16,
    pub boot: u64,
    pub seq: u64,
    pub phase: Phase,
}

#[derive(Clone, Copy)]
pub enum Outcome {
    Reserved(u64),
    Exhausted(u64),
    AtLimit(u64),
}

/// The last Ask of a machine, with what became of it.
#[derive(Clone, Copy)]
pub struct Last {
    pub boot: u64,
    pub seq: u64,
    pub outcome: Outcome,
}

pub enum Effect {
    Reserved(Row),
    Refused { machine: usize, last: Last },
    Granted(Row),
    Released(Row),
    Freed(u64),
    Known { agent: u16, boot: u64 },
    Cleared(u64),
}

#[derive(Clone, Default)]
struct Tenant {
    last: Option<Last>,
    rows: u64,
}

pub struct Table {
    rows: BTreeMap<u64, Row>,
    being_leased: BTreeSet<u64>,
    freeing: BTreeSet<u64>,
    /// The BeingLeased and Leased rows of each agent.
    standing: BTreeSet<(u16, u64)>,
    tenants: Vec<Tenant>,
    known: Vec<u64>,
    /// By VIP a bit for each range that is free, and a word below which all are zero.
    free: Vec<(Vec<u64>, usize)>,
}

impl Table {
    pub fn new(config: &Config) -> Table {
        Table {
            rows: BTreeMap::new(),
            being_leased: BTreeSet::new(),
            freeing: BTreeSet::new(),
            standing: BTreeSet::new(),
            tenants: vec![Tenant::default(); config.machines.len()],
            known: vec![0; 256],
            free: config.leasable.iter().map(|bits| (bits.clone(), 0)).collect(),
        }
    }

    pub fn row(&self, n: u64) -> Option<&Row> {
        self.rows.get(&n)
    }

    pub fn rows(&self) -> impl Iterator<Item = &Row> {
        self.rows.values()
    }

    pub fn being_leased(&self) -> impl Iterator<Item = u64> + '_ {
        self.being_leased.iter().copied()
    }

    pub fn freeing(&self) -> impl Iterator<Item = u64> + '_ {
        self.freeing.iter().copied()
    }

    pub fn last(&self, machine: usize) -> Option<Last> {
        self.tenants[machine].last
    }

    pub fn known(&self, agent: u16) -> u64 {
        self.known[usize::from(agent)]
    }

    /// Applies the commands of a slot, and answers what they did in their order.
    pub fn apply(&mut self, config: &Config, slot: u64, value: &[Command]) -> Vec<Effect> {
        let mut effects = Vec::new();
        for (i, command) in value.iter().enumerate() {
            match command {
                Command::Reserve { agent, boot, machine, seq } => {
                    if let Some(machine) = config.machine(*machine) {
                        self.reserve(config, (*agent, *boot, machine, *seq), 16 * slot + i as u64 + 1, &mut effects);
                    }
                }
                Command::Granted { n, .. } => {
                    if self.change(*n, |phase| phase == Phase::BeingLeased, Phase::Leased) {
                        effects.push(Effect::Granted(self.rows[n]));
                    }
                }
                Command::Release { n } => {
                    if self.change(*n, |phase| phase != Phase::Freeing, Phase::Freeing) {
                        effects.push(Effect::Released(self.rows[n]));
                    }
                }
                Command::Freed { n } => {
                    if self.freeing.remove(n) {
                        self.remove(*n);
                        effects.push(Effect::Freed(*n));
                    }
                }
                Command::Up { agent, boot } => {
                    if *agent < 256 && *boot > self.known(*agent) {
                        effects.push(Effect::Known { agent: *agent, boot: *boot });
                        self.raise(*agent, *boot, &mut effects);
                    }
                }
            }
        }
        effects
    }

    fn reserve(
        &mut self,
        config: &Config,
        (agent, boot, machine, seq): (u16, u64, usize, u64),
        place: u64,
        effects: &mut Vec<Effect>,
    ) {
        let own = &config.machines[machine];
        let Some(vip) = own.vip else { return };
        let is_old = self.last(machine).is_some_and(|last| (last.boot, last.seq) >= (boot, seq));
        if own.agent != agent || boot < self.known(agent) || is_old {
            return;
        }
        self.raise(agent, boot, effects);
        let rows = self.tenants[machine].rows;
        let outcome = if rows >= config.limit {
            Outcome::AtLimit(rows)
        } else if let Some(start) = self.take_free(vip) {
            let row = Row { n: place, vip, start, machine, agent, boot, seq, phase: Phase::BeingLeased };
            self.rows.insert(place, row);
            self.being_leased.insert(place);
            self.standing.insert((agent, place));
            self.tenants[machine].rows += 1;
            effects.push(Effect::Reserved(row));
            Outcome::Reserved(place)
        } else {
            Outcome::Exhausted(place)
        };
        let last = Last { boot, seq, outcome };
        self.tenants[machine].last = Some(last);
        if !matches!(outcome, Outcome::Reserved(_)) {
            effects.push(Effect::Refused { machine, last });
        }
    }

    /// The boot becomes known; where it rose, the agent's standing rows are of lower boots and become Freeing.
    fn raise(&mut self, agent: u16, boot: u64, effects: &mut Vec<Effect>) {
        if boot <= self.known(agent) {
            return;
        }
        self.known[usize::from(agent)] = boot;
        let lower: Vec<u64> = self.standing.range((agent, 0)..=(agent, u64::MAX)).map(|(_, n)| *n).collect();
        for n in lower {
            self.change(n, |_| true, Phase::Freeing);
            effects.push(Effect::Cleared(n));
        }
    }

    /// Whether the row is there in such a phase; then it is in the new one.
    fn change(&mut self, n: u64, from: impl Fn(Phase) -> bool, to: Phase) -> bool {
        let Some(row) = self.rows.get_mut(&n).filter(|row| from(row.phase)) else { return false };
        row.phase = to;
        self.being_leased.remove(&n);
        if to == Phase::Freeing {
            self.freeing.insert(n);
            self.standing.remove(&(row.agent, n));
        }
        true
    }

    fn remove(&mut self, n: u64) {
        let Some(row) = self.rows.remove(&n) else { return };
        self.tenants[row.machine].rows -= 1;
        let (bits, first) = &mut self.free[row.vip];
        let range = usize::from(row.start / 8);
        bits[range / 64] |= 1 << (range % 64);
        *first = (*first).min(range / 64);
    }

    /// The start of the VIP's least free range, which is free no more.
    fn take_free(&mut self, vip: usize) -> Option<u16> {
        let (bits, first) = &mut self.free[vip];
        while *first < bits.len() {
            let word = &mut bits[*first];
            if *word != 0 {
                let bit = word.trailing_zeros() as usize;
                *word &= *word - 1;
                return Some((*first * 64 + bit) as u16 * 8);
            }
            *first += 1;
        }
        None
    }
}
