//! Connections of an agent, or its inbound entries, by both keys and in the order of opening.
use crate::packets::Key;
use crate::step::Conn;
use std::collections::{BTreeMap, HashMap};

#[derive(Clone, Copy)]
pub struct Connection {
    pub ends: Conn,
    pub n: u64,
    pub last: u64,
    pub peer: Option<u32>,
}

impl Connection {
    /// With this private key, behind this VIP and port.
    pub fn of(private: &Key, vip: u32, port: u16, n: u64, last: u64) -> Connection {
        let Key { src: machine, dst: remote, sport, dport: rport, proto } = *private;
        Connection { ends: Conn { vip, proto, port, remote, rport, machine, sport }, n, last, peer: None }
    }

    pub fn private(&self) -> Key {
        let ends = &self.ends;
        Key { src: ends.machine, dst: ends.remote, sport: ends.sport, dport: ends.rport, proto: ends.proto }
    }

    fn public(&self) -> Key {
        let ends = &self.ends;
        Key { src: ends.vip, dst: ends.remote, sport: ends.port, dport: ends.rport, proto: ends.proto }
    }
}

#[derive(Default)]
pub struct Connections {
    by_opening: BTreeMap<u64, Connection>,
    by_private: HashMap<Key, u64>,
    by_public: HashMap<Key, u64>,
    opened: u64,
    /// No connection was used last before this.
    least_used: u64,
}

impl Connections {
    pub fn len(&self) -> usize {
        self.by_opening.len()
    }

    pub fn has_public(&self, key: &Key) -> bool {
        self.by_public.contains_key(key)
    }

    pub fn has_private(&self, key: &Key) -> bool {
        self.by_private.contains_key(key)
    }

    pub fn public(&mut self, key: &Key) -> Option<&mut Connection> {
        self.by_opening.get_mut(self.by_public.get(key)?)
    }

    /// The connection with this private key, whose time of use is now.
    pub fn private_used(&mut self, key: &Key, now: u64) -> Option<&Connection> {
        let found = self.by_opening.get_mut(self.by_private.get(key)?)?;
        found.last = now;
        Some(found)
    }

    pub fn open(&mut self, connection: Connection) {
        if self.by_opening.is_empty() {
            self.least_used = connection.last;
        }
        self.by_private.insert(connection.private(), self.opened);
        self.by_public.insert(connection.public(), self.opened);
        self.by_opening.insert(self.opened, connection);
        self.opened += 1;
    }

    pub fn close(&mut self, private: &Key) -> Option<Connection> {
        let closed = self.by_opening.remove(&self.by_private.remove(private)?)?;
        self.by_public.remove(&closed.public());
        Some(closed)
    }

    /// Those that are idle for so long leave, first opened first.
    pub fn expire(&mut self, now: u64, idle: u64) -> Vec<Connection> {
        let mut idle_ones = Vec::new();
        if self.by_opening.is_empty() || now - self.least_used < idle {
            return idle_ones;
        }
        self.least_used = now;
        for connection in self.by_opening.values() {
            if now - connection.last >= idle {
                idle_ones.push(*connection);
            } else {
                self.least_used = self.least_used.min(connection.last);
            }
        }
        for connection in &idle_ones {
            self.close(&connection.private());
        }
        idle_ones
    }
}
