//! The ranges of an agent: held ones, kept numbers, and numbers that are being given back.
use std::collections::{BTreeMap, BTreeSet, HashMap};

type Range = (usize, u16);

struct Held {
    range: Range,
    machine: usize,
    connections: u64,
    /// Since when it has none.
    idle_since: u64,
}

#[derive(Default)]
pub struct Ranges {
    held: BTreeMap<u64, Held>,
    by_machine: BTreeSet<(usize, u64)>,
    by_range: HashMap<Range, u64>,
    kept: HashMap<Range, u64>,
    /// In the order in which they joined.
    returning: BTreeMap<u64, u64>,
    joined: HashMap<u64, u64>,
    count: u64,
}

impl Ranges {
    /// The range's kept number, where it can't be held; else it is held.
    pub fn hold(&mut self, n: u64, range: Range, machine: usize, now: u64) -> Option<u64> {
        let kept = self.kept.entry(range).or_insert(0);
        let is_held = self.by_range.contains_key(&range) || self.held.contains_key(&n);
        if is_held || self.joined.contains_key(&n) || n <= *kept {
            return Some(*kept);
        }
        *kept = n;
        self.held.insert(n, Held { range, machine, connections: 0, idle_since: now });
        self.by_machine.insert((machine, n));
        self.by_range.insert(range, n);
        None
    }

    /// The first port of the machine's ranges that isn't used, with its number.
    pub fn choose(&self, machine: usize, is_used: impl Fn(u16) -> bool) -> Option<(u64, u16)> {
        self.by_machine.range((machine, 0)..=(machine, u64::MAX)).find_map(|(_, n)| {
            let start = self.held.get(n)?.range.1;
            (start..=start + 7).find(|port| !is_used(*port)).map(|port| (*n, port))
        })
    }

    pub fn opened(&mut self, n: u64) {
        if let Some(held) = self.held.get_mut(&n) {
            held.connections += 1;
        }
    }

    pub fn closed(&mut self, n: u64, now: u64) {
        if let Some(held) = self.held.get_mut(&n) {
            held.connections -= 1;
            held.idle_since = now;
        }
    }

    /// Those that are idle for so long, of machines that hold no packet, are given back, by number.
    pub fn give_back(&mut self, now: u64, idle: u64, holds: impl Fn(usize) -> bool) -> Vec<u64> {
        let is_idle = |held: &Held| held.connections == 0 && now - held.idle_since >= idle && !holds(held.machine);
        let given: Vec<u64> = self.held.iter().filter(|(_, held)| is_idle(held)).map(|(n, _)| *n).collect();
        for n in &given {
            if let Some(held) = self.held.remove(n) {
                self.by_machine.remove(&(held.machine, *n));
                self.by_range.remove(&held.range);
            }
            self.returning.insert(self.count, *n);
            self.joined.insert(*n, self.count);
            self.count += 1;
        }
        given
    }

    pub fn returning(&self) -> impl Iterator<Item = u64> + '_ {
        self.returning.values().copied()
    }

    /// Whether the number was being given back; it is no more.
    pub fn returned(&mut self, n: u64) -> bool {
        match self.joined.remove(&n) {
            Some(place) => self.returning.remove(&place).is_some(),
            None => false,
        }
    }
}
