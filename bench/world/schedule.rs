//! Schedules of nodes: each line as an event, or the number of the first bad one.
use crate::config::{self, Config, NodeId, Socket, Who};

const MOST_LINES: usize = 100_000;
const MOST_SETTLED: u64 = 1_000_000;
const LONGEST: usize = 65_507;

pub enum Single {
    Deliver(u64),
    Inject { node: NodeId, from: Socket, bytes: Vec<u8> },
    Tick { node: NodeId, now: u64 },
    Restart(NodeId),
}

pub enum Event {
    Single(Single),
    Settle(u64),
    Crash(NodeId),
    During { node: NodeId, single: Single, keeps: bool },
}

/// The words of a line between single spaces.
struct Words<'a>(Option<&'a str>);

impl<'a> Words<'a> {
    fn next(&mut self) -> Option<&'a str> {
        let rest = self.0?;
        let (word, rest) = match rest.split_once(' ') {
            Some((word, rest)) => (word, Some(rest)),
            None => (rest, None),
        };
        self.0 = rest;
        Some(word)
    }

    fn number(&mut self) -> Option<u64> {
        config::decimal(self.next()?)
    }

    fn node(&mut self, config: &Config) -> Option<NodeId> {
        let role = self.next()?;
        let index = self.number()?;
        let place = usize::try_from(index).ok()?;
        match role {
            "replica" if place < config.replicas.len() => Some(NodeId::Replica(index as u8)),
            "mux" if place < config.muxes.len() => Some(NodeId::Mux(index as u16)),
            "agent" if place < config.agents.len() => Some(NodeId::Agent(index as u16)),
            _ => None,
        }
    }

    fn bytes(&mut self) -> Option<Vec<u8>> {
        let text = self.next()?.as_bytes();
        if text.is_empty() || text.len() % 2 == 1 || text.len() / 2 > LONGEST {
            return None;
        }
        let digit = |byte: u8| char::from(byte).to_digit(16).map(|digit| digit as u8);
        text.chunks_exact(2).map(|pair| Some(digit(pair[0])? << 4 | digit(pair[1])?)).collect()
    }

    fn inject(&mut self, config: &Config) -> Option<Single> {
        let node = self.node(config)?;
        let from = config::socket(self.next()?)?;
        if let Who::Node(_) = config.who(from) {
            return None;
        }
        Some(Single::Inject { node, from, bytes: self.bytes()? })
    }

    fn single(&mut self, first: &str, config: &Config) -> Option<Single> {
        match first {
            "deliver" => Some(Single::Deliver(self.number()?)),
            "inject" => self.inject(config),
            "tick" => Some(Single::Tick { node: self.node(config)?, now: self.number()? }),
            "restart" => Some(Single::Restart(self.node(config)?)),
            _ => None,
        }
    }

    fn crash(&mut self, config: &Config) -> Option<Event> {
        let node = self.node(config)?;
        match self.next() {
            None => Some(Event::Crash(node)),
            Some("during") => {
                let first = self.next()?;
                let single = self.single(first, config)?;
                let keeps = match self.next()? {
                    "keep" => true,
                    "lose" => false,
                    _ => return None,
                };
                Some(Event::During { node, single, keeps })
            }
            Some(_) => None,
        }
    }

    fn event(&mut self, config: &Config) -> Option<Event> {
        let event = match self.next()? {
            "settle" => Event::Settle(self.number()?),
            "crash" => self.crash(config)?,
            first => Event::Single(self.single(first, config)?),
        };
        if self.0.is_none() { Some(event) } else { None }
    }
}

/// The events, or the number of the first line that is bad.
pub fn read(text: &[u8], config: &Config) -> Result<Vec<Event>, usize> {
    let mut events = Vec::new();
    let mut settled = 0u64;
    let whole = text.strip_suffix(b"\n").unwrap_or(text);
    if text.is_empty() {
        return Ok(events);
    }
    for (i, line) in whole.split(|byte| *byte == b'\n').enumerate() {
        let number = i + 1;
        if number > MOST_LINES {
            return Err(number);
        }
        if line.is_empty() || line[0] == b'#' {
            continue;
        }
        let event = std::str::from_utf8(line).ok().and_then(|line| Words(Some(line)).event(config)).ok_or(number)?;
        if let Event::Settle(count) = event {
            settled = settled.saturating_add(count);
            if settled > MOST_SETTLED {
                return Err(number);
            }
        }
        events.push(event);
    }
    Ok(events)
}
