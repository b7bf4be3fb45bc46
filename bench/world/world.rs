//! All nodes of a configuration, and every datagram that they sent.
use crate::agent::Agent;
use crate::config::{Config, NodeId, Who};
use crate::manager::Manager;
use crate::messages::{self, Message};
use crate::mux::Mux;
use crate::schedule::{Event, Single};
use crate::step::{Act, Cause, Note, Step, To};
use crate::transcript::Transcript;
use std::io::{self, Write};
use std::rc::Rc;

struct Datagram {
    from: NodeId,
    to: To,
    bytes: Rc<[u8]>,
    is_taken: bool,
}

pub struct World<'c> {
    config: &'c Config,
    managers: Vec<Manager<'c>>,
    muxes: Vec<Mux<'c>>,
    agents: Vec<Agent<'c>>,
    up: [Vec<bool>; 3],
    sent: Vec<Datagram>,
    /// No datagram before it waits for a delivery.
    waiting: usize,
    /// The greatest length of a log on any disk.
    greatest: u64,
    step: Step,
}

fn place(node: NodeId) -> (usize, usize) {
    match node {
        NodeId::Replica(i) => (0, usize::from(i)),
        NodeId::Mux(i) => (1, usize::from(i)),
        NodeId::Agent(i) => (2, usize::from(i)),
    }
}

/// The message of a control frame, by the tests that come before any node's own.
fn read_message(from: Who, bytes: &[u8]) -> Result<(NodeId, Message), Cause> {
    let Some(message) = messages::decode(bytes) else { return Err("BadMessage".into()) };
    let is_of_mux = matches!(from, Who::Node(NodeId::Mux(_)));
    match from {
        _ if matches!(message, Message::Redirect { .. }) && !is_of_mux => Err("NotFromMux".into()),
        Who::Node(node) => Ok((node, message)),
        _ => Err("NotNode".into()),
    }
}

impl<'c> World<'c> {
    pub fn new(config: &'c Config) -> World<'c> {
        World {
            config,
            managers: (0..5).map(|i| Manager::new(config, i)).collect(),
            muxes: (0..config.muxes.len()).map(|i| Mux::new(config, i as u16)).collect(),
            agents: (0..config.agents.len()).map(|i| Agent::new(config, i as u16)).collect(),
            up: [5, config.muxes.len(), config.agents.len()].map(|count| vec![true; count]),
            sent: Vec::new(),
            waiting: 0,
            greatest: 0,
            step: Step::default(),
        }
    }

    fn is_up(&self, node: NodeId) -> bool {
        let (role, index) = place(node);
        self.up[role][index]
    }

    fn set_up(&mut self, node: NodeId, is_up: bool) {
        let (role, index) = place(node);
        self.up[role][index] = is_up;
    }

    pub fn play<W: Write>(&mut self, event: &Event, lines: &mut Transcript<W>) -> io::Result<()> {
        lines.event(event)?;
        match event {
            Event::Single(single) => self.single(single, lines),
            Event::Settle(count) => self.settle(*count, lines),
            Event::Crash(node) if !self.is_up(*node) => lines.word("down"),
            Event::Crash(node) => self.crash(*node, lines),
            Event::During { node, single, keeps } => self.during(*node, single, *keeps, lines),
        }
    }

    fn single<W: Write>(&mut self, single: &Single, lines: &mut Transcript<W>) -> io::Result<()> {
        if let Some(word) = self.word(single) {
            if word == "down" {
                self.take(single);
            }
            return lines.word(word);
        }
        self.take(single);
        self.run(single);
        self.tell(single, lines)
    }

    /// The node that the event comes to; None where the datagram isn't sent yet or went outside.
    fn target(&self, single: &Single) -> Result<NodeId, &'static str> {
        match single {
            Single::Deliver(k) => match self.datagram(*k) {
                None => Err("none"),
                Some(Datagram { to: To::Outside(_), .. }) => Err("outside"),
                Some(Datagram { to: To::Node(node), .. }) => Ok(*node),
            },
            Single::Inject { node, .. } | Single::Tick { node, .. } | Single::Restart(node) => Ok(*node),
        }
    }

    /// The word that says why nothing happens.
    fn word(&self, single: &Single) -> Option<&'static str> {
        let node = match self.target(single) {
            Err(word) => return Some(word),
            Ok(node) => node,
        };
        match (single, self.is_up(node)) {
            (Single::Restart(_), true) => Some("up"),
            (Single::Restart(_), false) | (_, true) => None,
            (_, false) => Some("down"),
        }
    }

    fn datagram(&self, k: u64) -> Option<&Datagram> {
        self.sent.get(usize::try_from(k.checked_sub(1)?).ok()?)
    }

    fn take(&mut self, single: &Single) {
        if let Single::Deliver(k) = single {
            self.sent[*k as usize - 1].is_taken = true;
        }
    }

    /// The step of a node that the event is one input for.
    fn run(&mut self, single: &Single) {
        self.step.clear();
        match single {
            Single::Deliver(k) => {
                let Datagram { from, to, bytes, .. } = &self.sent[*k as usize - 1];
                if let To::Node(node) = *to {
                    let (from, bytes) = (Who::Node(*from), bytes.clone());
                    self.arrive(node, from, &bytes);
                }
            }
            Single::Inject { node, from, bytes } => self.arrive(*node, self.config.who(*from), bytes),
            Single::Tick { node, now } => self.tick(*node, *now),
            Single::Restart(node) => {
                match place(*node) {
                    (0, i) => self.managers[i].reopen(),
                    (1, i) => self.muxes[i].reopen(),
                    (_, i) => self.agents[i].reopen(),
                }
                self.set_up(*node, true);
            }
        }
        let longest = self.managers.iter().map(Manager::length).max().unwrap_or(0);
        if longest > self.greatest {
            self.greatest = longest;
        } else {
            self.step
                .acts
                .retain(|act| !matches!(act, Act::Reserve { .. } | Act::Grant(_) | Act::Free(_) | Act::Freed(_)));
        }
    }

    fn tick(&mut self, node: NodeId, now: u64) {
        let step = &mut self.step;
        match place(node) {
            (0, i) => self.managers[i].tick(now, step),
            (1, i) => self.muxes[i].tick(now, step),
            (_, i) => self.agents[i].tick(now, step),
        }
    }

    fn arrive(&mut self, node: NodeId, from: Who, bytes: &[u8]) {
        if let Err(cause) = self.handle(node, from, bytes) {
            self.step.notes.push(Note::Dropped(cause));
        }
    }

    fn handle(&mut self, node: NodeId, from: Who, bytes: &[u8]) -> Result<(), Cause> {
        let step = &mut self.step;
        match bytes {
            [1, rest @ ..] => {
                let (from, message) = read_message(from, rest)?;
                match place(node) {
                    (0, i) => self.managers[i].handle(from, message, step),
                    (1, i) => self.muxes[i].handle(from, message, step),
                    (_, i) => self.agents[i].handle(from, message, step),
                }
            }
            [2, packet @ ..] => match place(node) {
                (0, _) => Err("WrongRole".into()),
                (1, i) => self.muxes[i].packet(from, packet, step),
                (_, i) => self.agents[i].packet(from, packet, step),
            },
            _ => Err("BadFrame".into()),
        }
    }

    /// What the step made: acts, notes, and its datagrams, which are sent.
    fn tell<W: Write>(&mut self, single: &Single, lines: &mut Transcript<W>) -> io::Result<()> {
        let Ok(from) = self.target(single) else { return Ok(()) };
        for act in &self.step.acts {
            lines.act(act)?;
        }
        for note in &self.step.notes {
            lines.note(note)?;
        }
        for (to, bytes) in self.step.sends.drain(..) {
            if matches!(to, To::Node(NodeId::Agent(i)) if usize::from(i) >= self.agents.len()) {
                continue;
            }
            lines.sent(self.sent.len() + 1, from, to, &bytes)?;
            self.sent.push(Datagram { from, to, bytes, is_taken: false });
        }
        Ok(())
    }

    /// The place of the least datagram to a node that no delivery took.
    fn next_waiting(&mut self) -> Option<usize> {
        while let Some(datagram) = self.sent.get(self.waiting) {
            if !datagram.is_taken && matches!(datagram.to, To::Node(_)) {
                return Some(self.waiting);
            }
            self.waiting += 1;
        }
        None
    }

    fn settle<W: Write>(&mut self, count: u64, lines: &mut Transcript<W>) -> io::Result<()> {
        for _ in 0..count {
            let Some(place) = self.next_waiting() else { break };
            lines.delivery(place + 1)?;
            self.single(&Single::Deliver(place as u64 + 1), lines)?;
        }
        Ok(())
    }

    fn crash<W: Write>(&mut self, node: NodeId, lines: &mut Transcript<W>) -> io::Result<()> {
        self.set_up(node, false);
        match node {
            NodeId::Agent(agent) => lines.act(&Act::Lose(agent)),
            _ => Ok(()),
        }
    }

    /// A crash within the step of an event, whose entry is kept or lost.
    fn during<W: Write>(
        &mut self,
        node: NodeId,
        single: &Single,
        keeps: bool,
        lines: &mut Transcript<W>,
    ) -> io::Result<()> {
        match self.target(single) {
            Err(word) => return lines.word(word),
            Ok(own) if own != node => return lines.word("other"),
            Ok(_) => {}
        }
        if let Some(word) = self.word(single) {
            return lines.word(word);
        }
        self.take(single);
        if keeps {
            self.run(single);
            for act in self
                .step
                .acts
                .iter()
                .filter(|act| matches!(act, Act::Reserve { .. } | Act::Grant(_) | Act::Free(_) | Act::Freed(_)))
            {
                lines.act(act)?;
            }
        }
        self.crash(node, lines)
    }
}
