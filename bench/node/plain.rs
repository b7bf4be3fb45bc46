//! The job of a mux's node in plain Rust: a socket, a clock, a journal with two syncs an entry, and the plain mux.
//! Takes the words `node mux 0 --turns N`, and prints the same line.
#[path = "../plain/aimed.rs"]
#[allow(dead_code)]
mod aimed;
#[path = "../plain/maps.rs"]
#[allow(dead_code, unused_imports)]
mod maps;
#[path = "../plain/mux.rs"]
#[allow(dead_code)]
mod mux;
#[path = "../plain/packet.rs"]
#[allow(dead_code)]
mod packet;
#[path = "places.rs"]
#[allow(dead_code)]
mod places;

use mux::{Mux, Socket, Step, Who};
use places::{AGENTS, MUX, REPLICAS, ROUTER, address, machines};
use std::fs::{File, OpenOptions};
use std::io::{self, ErrorKind};
use std::net::{SocketAddr, UdpSocket};
use std::os::unix::fs::FileExt;
use std::time::{Duration, Instant};

const VIPS: u16 = 64;

/// A journal: a gate byte before each record, 1 where it stands; a record is its length and its body.
struct Journal {
    file: File,
    end: u64,
}

impl Journal {
    /// An empty one.
    fn new(name: &str) -> io::Result<Journal> {
        let file = OpenOptions::new().read(true).write(true).create(true).truncate(true).open(name)?;
        file.write_all_at(&[0], 0)?;
        file.sync_all()?;
        File::open(".")?.sync_all()?;
        Ok(Journal { file, end: 1 })
    }

    fn append(&mut self, body: &[u8]) -> io::Result<()> {
        let mut record = Vec::with_capacity(body.len() + 5);
        record.extend_from_slice(&(body.len() as u32).to_be_bytes());
        record.extend_from_slice(body);
        record.push(0);
        self.file.write_all_at(&record, self.end)?;
        self.file.sync_all()?;
        self.file.write_all_at(&[1], self.end - 1)?;
        self.file.sync_all()?;
        self.end += record.len() as u64;
        Ok(())
    }
}

#[derive(Default)]
struct Served {
    sent: u64,
    dropped: u64,
    failed: u64,
}

struct Node {
    mux: Mux,
    journal: Journal,
    socket: UdpSocket,
    served: Served,
    out: Vec<u8>,
}

fn boot_entry() -> [u8; 13] {
    [1, 1, 2, 0, 0, 0, 0, 0, 0, 0, 0, 0, 1]
}

fn hello() -> Vec<u8> {
    let mut bytes = vec![1, 1, 15];
    bytes.extend_from_slice(&1u64.to_be_bytes());
    bytes.extend_from_slice(&0u64.to_be_bytes());
    bytes
}

fn plain_mux() -> Mux {
    let mut mux = Mux::new(VIPS);
    mux.own = MUX.0;
    mux.who.clear();
    mux.who.extend(REPLICAS.map(|at| (at, Who::Replica)));
    mux.who.insert(MUX, Who::Mux);
    mux.who.extend(AGENTS.map(|at| (at, Who::Agent)));
    mux.who.extend(machines().map(|at| (at, Who::Machine)));
    mux
}

impl Node {
    fn open() -> io::Result<Node> {
        let mut journal = Journal::new("mux-0-a")?;
        journal.append(&boot_entry())?;
        let socket = UdpSocket::bind(address(MUX))?;
        socket.set_read_timeout(Some(Duration::from_millis(10)))?;
        Ok(Node { mux: plain_mux(), journal, socket, served: Served::default(), out: Vec::with_capacity(65_507) })
    }

    fn send(&mut self, to: Socket, bytes: &[u8]) {
        match self.socket.send_to(bytes, address(to)) {
            Ok(_) => self.served.sent += 1,
            Err(_) => self.served.failed += 1,
        }
    }

    fn tick(&mut self, now: u64) {
        self.mux.tick(now);
        for to in REPLICAS {
            self.send(to, &hello());
        }
    }

    fn packet(&mut self, from: Socket, bytes: &[u8]) {
        let mut out = std::mem::take(&mut self.out);
        match self.mux.packet(&from, bytes, &mut out) {
            Ok(agent) => {
                out.insert(0, 2);
                self.send(AGENTS[usize::from(agent)], &out);
            }
            Err(_cause) => self.served.dropped += 1,
        }
        self.out = out;
    }

    fn finish(&mut self, step: Step) -> io::Result<()> {
        if let Some(entry) = &step.entry {
            self.journal.append(entry)?;
        }
        self.served.dropped += step.drops.len() as u64;
        for (to, bytes) in &step.sends {
            self.send(*to, bytes);
        }
        Ok(())
    }

    fn take(&mut self, from: Socket, bytes: &[u8]) -> io::Result<()> {
        match bytes {
            [2, packet @ ..] => {
                self.packet(from, packet);
                Ok(())
            }
            _ => {
                let step = self.mux.handle(from, bytes);
                self.finish(step)
            }
        }
    }

    fn serve(&mut self, turns: u64) -> io::Result<()> {
        let start = Instant::now();
        let mut buf = vec![0; 65_507];
        let mut last = None;
        for _ in 0..turns {
            let now = start.elapsed().as_millis() as u64;
            if last.is_none_or(|last| now - last >= 100) {
                last = Some(now);
                self.tick(now);
                continue;
            }
            match self.socket.recv_from(&mut buf) {
                Ok((count, SocketAddr::V4(from))) => self.take((from.ip().to_bits(), from.port()), &buf[..count])?,
                Ok((_, SocketAddr::V6(_))) => {}
                Err(e) if matches!(e.kind(), ErrorKind::WouldBlock | ErrorKind::TimedOut) => {}
                Err(e) => return Err(e),
            }
        }
        Ok(())
    }
}

fn main() -> io::Result<()> {
    let words: Vec<String> = std::env::args().skip(1).collect();
    let turns = match words.iter().map(String::as_str).collect::<Vec<_>>()[..] {
        ["node", "mux", "0", "--turns", turns] => turns.parse().expect("a number of turns"),
        _ => panic!("node mux 0 --turns N"),
    };
    let _ = ROUTER;
    let mut node = Node::open()?;
    node.serve(turns)?;
    let Served { sent, dropped, failed } = node.served;
    println!("turns {turns} sent {sent} dropped {dropped} failed {failed}");
    Ok(())
}
