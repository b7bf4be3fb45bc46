//! A node's journal, as it is in a file: a gate byte; while that is 1, a length, an entry and the next gate.
use crate::config::NodeId;
use crate::messages::{Entry, decode_entry, encode_entry};

pub struct Journal(Vec<u8>);

impl Journal {
    /// An empty disk.
    pub fn new() -> Journal {
        Journal(vec![0])
    }

    pub fn append(&mut self, entry: &Entry) {
        let body = encode_entry(entry);
        let gate = self.0.len() - 1;
        self.0.extend_from_slice(&(body.len() as u32).to_be_bytes());
        self.0.extend_from_slice(&body);
        self.0.push(0);
        self.0[gate] = 1;
    }

    /// Hands on each entry from the first on, and adds the Boot of this opening, whose number is the answer.
    pub fn open(&mut self, node: NodeId, take: impl FnMut(Entry)) -> u64 {
        let boot = self.read(node, take).expect("a journal that this node alone wrote") + 1;
        self.append(&Entry::Boot { node, boot });
        boot
    }

    /// The last boot, where the journal is whole and the node's own.
    fn read(&self, node: NodeId, mut take: impl FnMut(Entry)) -> Option<u64> {
        let mut boot = 0;
        let mut rest = &self.0[..];
        while let [1, record @ ..] = rest {
            let (length, behind) = record.split_first_chunk()?;
            let (body, behind) = behind.split_at_checked(u32::from_be_bytes(*length) as usize)?;
            match decode_entry(body)? {
                Entry::Boot { node: named, .. } if named != node => return None,
                Entry::Boot { boot: last, .. } => boot = last,
                entry => take(entry),
            }
            rest = behind;
        }
        rest.first().map(|_| boot)
    }
}
