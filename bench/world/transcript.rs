//! The lines of a transcript, written as they come, or counted alone.
use crate::config::{NodeId, Socket};
use crate::schedule::{Event, Single};
use crate::step::{Act, Cause, Conn, Note, To};
use std::fmt::{self, Display, Formatter};
use std::io::{self, Write};
use std::net::Ipv4Addr;

/// How many acts of each kind, in the order of the summary.
const ACTS: [&str; 10] = ["reserve", "grant", "hold", "drop", "free", "freed", "open", "close", "lose", "hand"];

#[derive(Default)]
pub struct Counts {
    events: u64,
    sent: u64,
    acts: [u64; 10],
    drops: u64,
}

pub struct Transcript<W: Write> {
    /// None where the lines are counted alone.
    out: Option<W>,
    counts: Counts,
}

impl Display for NodeId {
    fn fmt(&self, f: &mut Formatter) -> fmt::Result {
        match self {
            NodeId::Replica(i) => write!(f, "replica {i}"),
            NodeId::Mux(i) => write!(f, "mux {i}"),
            NodeId::Agent(i) => write!(f, "agent {i}"),
        }
    }
}

struct Place(Socket);

impl Display for Place {
    fn fmt(&self, f: &mut Formatter) -> fmt::Result {
        write!(f, "{}:{}", Ipv4Addr::from(self.0.0), self.0.1)
    }
}

impl Display for To {
    fn fmt(&self, f: &mut Formatter) -> fmt::Result {
        match self {
            To::Node(node) => node.fmt(f),
            To::Outside(socket) => Place(*socket).fmt(f),
        }
    }
}

struct Hex<'a>(&'a [u8]);

impl Display for Hex<'_> {
    fn fmt(&self, f: &mut Formatter) -> fmt::Result {
        const DIGITS: &[u8; 16] = b"0123456789abcdef";
        let mut piece = [0; 256];
        for bytes in self.0.chunks(128) {
            for (byte, pair) in bytes.iter().zip(piece.chunks_exact_mut(2)) {
                pair[0] = DIGITS[usize::from(byte >> 4)];
                pair[1] = DIGITS[usize::from(byte & 15)];
            }
            f.write_str(std::str::from_utf8(&piece[..2 * bytes.len()]).map_err(|_| fmt::Error)?)?;
        }
        Ok(())
    }
}

impl Display for Single {
    fn fmt(&self, f: &mut Formatter) -> fmt::Result {
        match self {
            Single::Deliver(k) => write!(f, "deliver {k}"),
            Single::Inject { node, from, bytes } => write!(f, "inject {node} {} {}", Place(*from), Hex(bytes)),
            Single::Tick { node, now } => write!(f, "tick {node} {now}"),
            Single::Restart(node) => write!(f, "restart {node}"),
        }
    }
}

impl Display for Event {
    fn fmt(&self, f: &mut Formatter) -> fmt::Result {
        match self {
            Event::Single(single) => single.fmt(f),
            Event::Settle(count) => write!(f, "settle {count}"),
            Event::Crash(node) => write!(f, "crash {node}"),
            Event::During { node, single, keeps } => {
                write!(f, "crash {node} during {single} {}", if *keeps { "keep" } else { "lose" })
            }
        }
    }
}

impl Display for Conn {
    fn fmt(&self, f: &mut Formatter) -> fmt::Result {
        let proto = if self.proto == 6 { "tcp" } else { "udp" };
        let [vip, remote, machine] = [self.vip, self.remote, self.machine].map(Ipv4Addr::from);
        write!(f, "{proto} {vip} {} {remote} {} {machine} {}", self.port, self.rport, self.sport)
    }
}

impl Act {
    /// Its place in the summary.
    fn kind(&self) -> usize {
        match self {
            Act::Reserve { .. } => 0,
            Act::Grant(_) => 1,
            Act::Hold(_) => 2,
            Act::Drop(_) => 3,
            Act::Free(_) => 4,
            Act::Freed(_) => 5,
            Act::Open(_) => 6,
            Act::Close(_) => 7,
            Act::Lose(_) => 8,
            Act::Hand(..) => 9,
        }
    }
}

impl Display for Act {
    fn fmt(&self, f: &mut Formatter) -> fmt::Result {
        write!(f, "{} ", ACTS[self.kind()])?;
        match self {
            Act::Reserve { n, vip, start, machine } => {
                write!(f, "{n} {} {start} {}", Ipv4Addr::from(*vip), Ipv4Addr::from(*machine))
            }
            Act::Grant(n) | Act::Hold(n) | Act::Drop(n) | Act::Free(n) | Act::Freed(n) => write!(f, "{n}"),
            Act::Open(ends) | Act::Close(ends) => ends.fmt(f),
            Act::Lose(agent) => write!(f, "agent {agent}"),
            Act::Hand(machine, frame) => write!(f, "{} {}", Ipv4Addr::from(*machine), Hex(&frame[1..])),
        }
    }
}

impl Display for Cause {
    fn fmt(&self, f: &mut Formatter) -> fmt::Result {
        match self.number {
            None => f.write_str(self.name),
            Some(number) => write!(f, "{} {number}", self.name),
        }
    }
}

impl<W: Write> Transcript<W> {
    pub fn to(out: W) -> Transcript<W> {
        Transcript { out: Some(out), counts: Counts::default() }
    }

    pub fn counting() -> Transcript<W> {
        Transcript { out: None, counts: Counts::default() }
    }

    fn line(&mut self, line: fmt::Arguments) -> io::Result<()> {
        match &mut self.out {
            Some(out) => {
                out.write_fmt(line)?;
                out.write_all(b"\n")
            }
            None => Ok(()),
        }
    }

    pub fn event(&mut self, event: &Event) -> io::Result<()> {
        self.counts.events += 1;
        self.line(format_args!("event {event}"))
    }

    pub fn delivery(&mut self, k: usize) -> io::Result<()> {
        self.counts.events += 1;
        self.line(format_args!("event deliver {k}"))
    }

    pub fn word(&mut self, word: &str) -> io::Result<()> {
        self.line(format_args!("{word}"))
    }

    pub fn act(&mut self, act: &Act) -> io::Result<()> {
        self.counts.acts[act.kind()] += 1;
        self.line(format_args!("act {act}"))
    }

    pub fn note(&mut self, note: &Note) -> io::Result<()> {
        match note {
            Note::Queued(machine, count) => self.line(format_args!("queued {} {count}", Ipv4Addr::from(*machine))),
            Note::Dropped(cause) => {
                self.counts.drops += 1;
                self.line(format_args!("drop {cause}"))
            }
        }
    }

    pub fn sent(&mut self, k: usize, from: NodeId, to: To, bytes: &[u8]) -> io::Result<()> {
        self.counts.sent += 1;
        self.line(format_args!("sent {k} {from} {to} {}", Hex(bytes)))
    }

    pub fn finish(self) -> io::Result<Counts> {
        if let Some(mut out) = self.out {
            out.flush()?;
        }
        Ok(self.counts)
    }
}

impl Display for Counts {
    fn fmt(&self, f: &mut Formatter) -> fmt::Result {
        write!(f, "events {}\nsent {}\nacts", self.events, self.sent)?;
        for (name, count) in ACTS.iter().zip(self.acts) {
            write!(f, " {name} {count}")?;
        }
        writeln!(f, "\ndrops {}", self.drops)
    }
}
