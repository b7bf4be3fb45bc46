//! What one input makes a node do.
use crate::config::{NodeId, Socket};
use crate::messages::{Message, encode};
use std::rc::Rc;

#[derive(Clone, Copy)]
pub struct Conn {
    pub vip: u32,
    pub proto: u8,
    pub port: u16,
    pub remote: u32,
    pub rport: u16,
    pub machine: u32,
    pub sport: u16,
}

pub enum Act {
    Reserve {
        n: u64,
        vip: u32,
        start: u16,
        machine: u32,
    },
    Grant(u64),
    Free(u64),
    Freed(u64),
    Hold(u64),
    Drop(u64),
    Open(Conn),
    Close(Conn),
    Lose(u16),
    /// The datagram that hands the packet over: a frame byte and the packet.
    Hand(u32, Rc<[u8]>),
}

pub struct Cause {
    pub name: &'static str,
    pub number: Option<u64>,
}

impl Cause {
    pub fn with(name: &'static str, number: u64) -> Cause {
        Cause { name, number: Some(number) }
    }
}

impl From<&'static str> for Cause {
    fn from(name: &'static str) -> Cause {
        Cause { name, number: None }
    }
}

pub fn late<T>() -> Result<T, Cause> {
    Err("Late".into())
}

pub enum Note {
    Queued(u32, usize),
    Dropped(Cause),
}

#[derive(Clone, Copy)]
pub enum To {
    Node(NodeId),
    Outside(Socket),
}

#[derive(Default)]
pub struct Step {
    pub acts: Vec<Act>,
    pub notes: Vec<Note>,
    pub sends: Vec<(To, Rc<[u8]>)>,
}

impl Step {
    pub fn clear(&mut self) {
        self.acts.clear();
        self.notes.clear();
        self.sends.clear();
    }

    pub fn send(&mut self, node: NodeId, message: &Message) {
        self.sends.push((To::Node(node), encode(message)));
    }

    pub fn reply(&mut self, replica: u8, message: &Message) {
        self.send(NodeId::Replica(replica), message);
    }

    pub fn to_all(&mut self, message: &Message) {
        self.to_replicas(message, |_| true);
    }

    pub fn to_others(&mut self, own: u8, message: &Message) {
        self.to_replicas(message, |i| i != own);
    }

    fn to_replicas(&mut self, message: &Message, which: impl Fn(u8) -> bool) {
        let bytes = encode(message);
        for i in (0..5).filter(|i| which(*i)) {
            self.sends.push((To::Node(NodeId::Replica(i)), bytes.clone()));
        }
    }
}
