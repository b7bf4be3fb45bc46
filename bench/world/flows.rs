//! The flows of a mux: untrusted ones had one packet, and trusted ones more; of each list the oldest leaves first.
use crate::packets::Key;
use std::collections::{BTreeMap, HashMap};

const MOST_UNTRUSTED: usize = 16_384;
const MOST_TRUSTED: usize = 65_536;

struct Flow {
    machine: usize,
    count: u8,
    last: u64,
    is_trusted: bool,
    /// Its place in its list: when it was noted, counted over all flows.
    noted: u64,
}

#[derive(Default)]
pub struct Flows {
    flows: HashMap<Key, Flow>,
    untrusted: BTreeMap<u64, Key>,
    trusted: BTreeMap<u64, Key>,
    noted: u64,
}

impl Flows {
    pub fn machine(&self, key: &Key) -> Option<usize> {
        self.flows.get(key).map(|flow| flow.machine)
    }

    /// The flow had one packet more: its new count.
    pub fn note(&mut self, key: Key, is_first: bool, machine: usize, now: u64) -> u8 {
        self.noted += 1;
        let noted = self.noted;
        let Some(flow) = self.flows.get_mut(&key) else {
            if self.untrusted.len() == MOST_UNTRUSTED {
                if let Some((_, oldest)) = self.untrusted.pop_first() {
                    self.flows.remove(&oldest);
                }
            }
            self.untrusted.insert(noted, key);
            self.flows.insert(key, Flow { machine, count: 1, last: now, is_trusted: false, noted });
            return 1;
        };
        let list = if flow.is_trusted { &mut self.trusted } else { &mut self.untrusted };
        list.remove(&flow.noted);
        flow.is_trusted = flow.is_trusted || self.trusted.len() < MOST_TRUSTED;
        let list = if flow.is_trusted { &mut self.trusted } else { &mut self.untrusted };
        list.insert(noted, key);
        flow.noted = noted;
        flow.last = now;
        flow.count = if is_first { 1 } else { (flow.count + 1).min(4) };
        flow.count
    }

    pub fn expire(&mut self, now: u64, idle: u64) {
        for list in [&mut self.untrusted, &mut self.trusted] {
            while let Some(oldest) = list.first_entry() {
                if self.flows.get(oldest.get()).is_some_and(|flow| now - flow.last < idle) {
                    break;
                }
                self.flows.remove(&oldest.remove());
            }
        }
    }
}
