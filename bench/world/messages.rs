//! Values, the entries of disks, and the messages between the nodes.
use crate::config::NodeId;
use std::rc::Rc;

#[derive(Clone, PartialEq, Eq, Hash)]
pub enum Command {
    Reserve { agent: u16, boot: u64, machine: u32, seq: u64 },
    Granted { n: u64, muxes: Vec<(u16, u64)> },
    Release { n: u64 },
    Freed { n: u64 },
    Up { agent: u16, boot: u64 },
}

pub type Value = Rc<[Command]>;

/// What a node makes durable.
pub enum Entry {
    Boot { node: NodeId, boot: u64 },
    Promise { ballot: u64 },
    Vote { ballot: u64, value: Value },
    Learn { ballot: u64, value: Value },
    Epoch { epoch: u64 },
}

pub enum Message {
    Prepare { ballot: u64 },
    Promise { ballot: u64, length: u64, vote: Option<(u64, Value)> },
    Accept { ballot: u64, slot: u64, value: Value },
    Accepted { ballot: u64, slot: u64 },
    Refuse { ballot: u64, promised: u64 },
    Chosen { slot: u64, ballot: u64, value: Value },
    Fetch { slot: u64 },
    Ask { boot: u64, machine: u32, seq: u64 },
    Grant { boot: u64, machine: u32, seq: u64, n: u64, vip: u32, start: u16 },
    Denied { boot: u64, machine: u32, seq: u64, reason: u8, number: u64 },
    Return { boot: u64, n: u64 },
    Returned { boot: u64, n: u64 },
    AgentUp { boot: u64 },
    AgentKnown { boot: u64 },
    MuxHello { boot: u64, epoch: u64 },
    Program { epoch: u64, boot: u64, n: u64, vip: u32, start: u16, machine: u32 },
    Programmed { epoch: u64, boot: u64, n: u64 },
    Unprogram { epoch: u64, boot: u64, n: u64, vip: u32, start: u16 },
    Unprogrammed { epoch: u64, boot: u64, n: u64 },
    MuxRefuse { epoch: u64, boot: u64, kept: u64 },
    Lead { ballot: u64, length: u64 },
    RedirectAsk { src: u32, sport: u16, dst: u32, dport: u16, machine: u32 },
    Redirect { side: u8, n: u64, src: u32, sport: u16, dst: u32, dport: u16, opener: u32, server: u32 },
}

struct Reader<'a>(&'a [u8]);

impl Reader<'_> {
    fn take<const N: usize>(&mut self) -> Option<[u8; N]> {
        let (taken, rest) = self.0.split_first_chunk()?;
        self.0 = rest;
        Some(*taken)
    }

    fn byte(&mut self) -> Option<u8> {
        self.take().map(|[byte]| byte)
    }

    fn port(&mut self) -> Option<u16> {
        self.take().map(u16::from_be_bytes)
    }

    fn address(&mut self) -> Option<u32> {
        self.take().map(u32::from_be_bytes)
    }

    fn number(&mut self) -> Option<u64> {
        self.take().map(u64::from_be_bytes)
    }

    /// A multiple of 8 from 1024 to 65528.
    fn start(&mut self) -> Option<u16> {
        self.port().filter(|start| start % 8 == 0 && *start >= 1024)
    }

    fn count(&mut self) -> Option<u8> {
        self.byte().filter(|count| (1..=16).contains(count))
    }

    fn muxes(&mut self) -> Option<Vec<(u16, u64)>> {
        let count = self.count()?;
        let mut muxes: Vec<(u16, u64)> = Vec::with_capacity(usize::from(count));
        for _ in 0..count {
            let mux = self.port()?;
            if muxes.last().is_some_and(|last| last.0 >= mux) {
                return None;
            }
            muxes.push((mux, self.number()?));
        }
        Some(muxes)
    }

    fn command(&mut self) -> Option<Command> {
        Some(match self.byte()? {
            1 => Command::Reserve {
                agent: self.port()?,
                boot: self.number()?,
                machine: self.address()?,
                seq: self.number()?,
            },
            2 => Command::Granted { n: self.number()?, muxes: self.muxes()? },
            3 => Command::Release { n: self.number()? },
            4 => Command::Freed { n: self.number()? },
            5 => Command::Up { agent: self.port()?, boot: self.number()? },
            _ => return None,
        })
    }

    fn value(&mut self) -> Option<Value> {
        let count = self.count()?;
        (0..count).map(|_| self.command()).collect()
    }

    fn vote(&mut self) -> Option<Option<(u64, Value)>> {
        Some(match self.number()? {
            0 => None,
            ballot => Some((ballot, self.value()?)),
        })
    }

    fn boot(&mut self) -> Option<Entry> {
        let [1, role] = self.take()? else { return None };
        let index = self.port()?;
        let node = match role {
            1 => NodeId::Replica(u8::try_from(index).ok()?),
            2 => NodeId::Mux(index),
            3 => NodeId::Agent(index),
            _ => return None,
        };
        Some(Entry::Boot { node, boot: self.number()? })
    }

    fn entry(&mut self) -> Option<Entry> {
        Some(match self.byte()? {
            1 => self.boot()?,
            2 => Entry::Promise { ballot: self.number()? },
            3 => Entry::Vote { ballot: self.number()?, value: self.value()? },
            4 => Entry::Learn { ballot: self.number()?, value: self.value()? },
            5 => Entry::Epoch { epoch: self.number()? },
            _ => return None,
        })
    }

    fn replicas(&mut self, kind: u8) -> Option<Message> {
        Some(match kind {
            1 => Message::Prepare { ballot: self.number()? },
            2 => Message::Promise { ballot: self.number()?, length: self.number()?, vote: self.vote()? },
            3 => Message::Accept { ballot: self.number()?, slot: self.number()?, value: self.value()? },
            4 => Message::Accepted { ballot: self.number()?, slot: self.number()? },
            5 => Message::Refuse { ballot: self.number()?, promised: self.number()? },
            6 => Message::Chosen { slot: self.number()?, ballot: self.number()?, value: self.value()? },
            7 => Message::Fetch { slot: self.number()? },
            21 => Message::Lead { ballot: self.number()?, length: self.number()? },
            _ => return None,
        })
    }

    fn agents(&mut self, kind: u8) -> Option<Message> {
        Some(match kind {
            8 => Message::Ask { boot: self.number()?, machine: self.address()?, seq: self.number()? },
            9 => Message::Grant {
                boot: self.number()?,
                machine: self.address()?,
                seq: self.number()?,
                n: self.number()?,
                vip: self.address()?,
                start: self.start()?,
            },
            10 => Message::Denied {
                boot: self.number()?,
                machine: self.address()?,
                seq: self.number()?,
                reason: self.byte().filter(|reason| matches!(reason, 1 | 2))?,
                number: self.number()?,
            },
            11 => Message::Return { boot: self.number()?, n: self.number()? },
            12 => Message::Returned { boot: self.number()?, n: self.number()? },
            13 => Message::AgentUp { boot: self.number()? },
            14 => Message::AgentKnown { boot: self.number()? },
            _ => return None,
        })
    }

    fn muxes_and_managers(&mut self, kind: u8) -> Option<Message> {
        Some(match kind {
            15 => Message::MuxHello { boot: self.number()?, epoch: self.number()? },
            16 => Message::Program {
                epoch: self.number()?,
                boot: self.number()?,
                n: self.number()?,
                vip: self.address()?,
                start: self.start()?,
                machine: self.address()?,
            },
            17 => Message::Programmed { epoch: self.number()?, boot: self.number()?, n: self.number()? },
            18 => Message::Unprogram {
                epoch: self.number()?,
                boot: self.number()?,
                n: self.number()?,
                vip: self.address()?,
                start: self.start()?,
            },
            19 => Message::Unprogrammed { epoch: self.number()?, boot: self.number()?, n: self.number()? },
            20 => Message::MuxRefuse { epoch: self.number()?, boot: self.number()?, kept: self.number()? },
            _ => return None,
        })
    }

    fn redirects(&mut self, kind: u8) -> Option<Message> {
        Some(match kind {
            22 => Message::RedirectAsk {
                src: self.address()?,
                sport: self.port()?,
                dst: self.address()?,
                dport: self.port()?,
                machine: self.address()?,
            },
            23 => Message::Redirect {
                side: self.byte().filter(|side| *side < 2)?,
                n: self.number()?,
                src: self.address()?,
                sport: self.port()?,
                dst: self.address()?,
                dport: self.port()?,
                opener: self.address()?,
                server: self.address()?,
            },
            _ => return None,
        })
    }
}

/// The entry that these bytes spell as a whole.
pub fn decode_entry(bytes: &[u8]) -> Option<Entry> {
    let mut reader = Reader(bytes);
    let entry = reader.entry()?;
    if reader.0.is_empty() { Some(entry) } else { None }
}

/// The message behind a frame byte.
pub fn decode(bytes: &[u8]) -> Option<Message> {
    let mut reader = Reader(bytes);
    let [1, kind] = reader.take()? else { return None };
    let message = match kind {
        1..=7 | 21 => reader.replicas(kind)?,
        8..=14 => reader.agents(kind)?,
        15..=20 => reader.muxes_and_managers(kind)?,
        _ => reader.redirects(kind)?,
    };
    if reader.0.is_empty() { Some(message) } else { None }
}

struct Writer(Vec<u8>);

impl Writer {
    fn byte(mut self, byte: u8) -> Writer {
        self.0.push(byte);
        self
    }

    fn port(mut self, port: u16) -> Writer {
        self.0.extend_from_slice(&port.to_be_bytes());
        self
    }

    fn address(mut self, address: u32) -> Writer {
        self.0.extend_from_slice(&address.to_be_bytes());
        self
    }

    fn number(mut self, number: u64) -> Writer {
        self.0.extend_from_slice(&number.to_be_bytes());
        self
    }

    fn command(self, command: &Command) -> Writer {
        match command {
            Command::Reserve { agent, boot, machine, seq } => {
                self.byte(1).port(*agent).number(*boot).address(*machine).number(*seq)
            }
            Command::Granted { n, muxes } => {
                let start = self.byte(2).number(*n).byte(muxes.len() as u8);
                muxes.iter().fold(start, |writer, (mux, boot)| writer.port(*mux).number(*boot))
            }
            Command::Release { n } => self.byte(3).number(*n),
            Command::Freed { n } => self.byte(4).number(*n),
            Command::Up { agent, boot } => self.byte(5).port(*agent).number(*boot),
        }
    }

    fn value(self, value: &[Command]) -> Writer {
        value.iter().fold(self.byte(value.len() as u8), Writer::command)
    }
}

pub fn encode_entry(entry: &Entry) -> Vec<u8> {
    let start = |kind| Writer(Vec::with_capacity(64)).byte(kind);
    let written = match entry {
        Entry::Boot { node, boot } => {
            let (role, index) = match node {
                NodeId::Replica(i) => (1, u16::from(*i)),
                NodeId::Mux(i) => (2, *i),
                NodeId::Agent(i) => (3, *i),
            };
            start(1).byte(1).byte(role).port(index).number(*boot)
        }
        Entry::Promise { ballot } => start(2).number(*ballot),
        Entry::Vote { ballot, value } => start(3).number(*ballot).value(value),
        Entry::Learn { ballot, value } => start(4).number(*ballot).value(value),
        Entry::Epoch { epoch } => start(5).number(*epoch),
    };
    written.0
}

/// The datagram with this message.
pub fn encode(message: &Message) -> Rc<[u8]> {
    use Message::*;
    let start = |kind| Writer(Vec::with_capacity(64)).byte(1).byte(1).byte(kind);
    let written = match message {
        Prepare { ballot } => start(1).number(*ballot),
        Promise { ballot, length, vote } => {
            let front = start(2).number(*ballot).number(*length);
            match vote {
                None => front.number(0),
                Some((ballot, value)) => front.number(*ballot).value(value),
            }
        }
        Accept { ballot, slot, value } => start(3).number(*ballot).number(*slot).value(value),
        Accepted { ballot, slot } => start(4).number(*ballot).number(*slot),
        Refuse { ballot, promised } => start(5).number(*ballot).number(*promised),
        Chosen { slot, ballot, value } => start(6).number(*slot).number(*ballot).value(value),
        Fetch { slot } => start(7).number(*slot),
        Ask { boot, machine, seq } => start(8).number(*boot).address(*machine).number(*seq),
        Grant { boot, machine, seq, n, vip, start: first } => {
            start(9).number(*boot).address(*machine).number(*seq).number(*n).address(*vip).port(*first)
        }
        Denied { boot, machine, seq, reason, number } => {
            start(10).number(*boot).address(*machine).number(*seq).byte(*reason).number(*number)
        }
        Return { boot, n } => start(11).number(*boot).number(*n),
        Returned { boot, n } => start(12).number(*boot).number(*n),
        AgentUp { boot } => start(13).number(*boot),
        AgentKnown { boot } => start(14).number(*boot),
        MuxHello { boot, epoch } => start(15).number(*boot).number(*epoch),
        Program { epoch, boot, n, vip, start: first, machine } => {
            start(16).number(*epoch).number(*boot).number(*n).address(*vip).port(*first).address(*machine)
        }
        Programmed { epoch, boot, n } => start(17).number(*epoch).number(*boot).number(*n),
        Unprogram { epoch, boot, n, vip, start: first } => {
            start(18).number(*epoch).number(*boot).number(*n).address(*vip).port(*first)
        }
        Unprogrammed { epoch, boot, n } => start(19).number(*epoch).number(*boot).number(*n),
        MuxRefuse { epoch, boot, kept } => start(20).number(*epoch).number(*boot).number(*kept),
        Lead { ballot, length } => start(21).number(*ballot).number(*length),
        RedirectAsk { src, sport, dst, dport, machine } => {
            start(22).address(*src).port(*sport).address(*dst).port(*dport).address(*machine)
        }
        Redirect { side, n, src, sport, dst, dport, opener, server } => {
            let front = start(23).byte(*side).number(*n).address(*src).port(*sport);
            front.address(*dst).port(*dport).address(*opener).address(*server)
        }
    };
    written.0.into()
}
