//! The job of the proved program in plain Rust: a journal over a disk in memory that keeps what each call replaced.
use std::hint::black_box;
use std::time::Instant;

const EPOCH: &[u8] = b"\x05\x00\x00\x00\x00\x00\x00\x00\x05";
const BOUND: usize = 1_073_741_824;

#[derive(Clone, Copy)]
struct Span {
    from: u64,
    to: u64,
}

enum Replaced {
    Bytes { at: usize, count: usize, old: Vec<u8> },
    Ranges { unsynced: Vec<Span> },
}

struct Undo {
    replaced: Replaced,
    least: usize,
    greatest: usize,
}

#[derive(Default)]
struct Disk {
    buffer: Vec<u8>,
    unsynced: Vec<Span>,
    least: usize,
    undo: Vec<Undo>,
}

impl Disk {
    fn read(&self, at: usize, buf: &mut [u8]) -> usize {
        let at = at.min(self.buffer.len());
        let count = buf.len().min(self.buffer.len() - at);
        buf[..count].copy_from_slice(&self.buffer[at..at + count]);
        count
    }

    fn write_at(&mut self, at: usize, piece: &[u8]) {
        let over = piece.len().min(self.buffer.len() - at);
        let old = self.buffer[at..at + over].to_vec();
        let greatest = self.buffer.len();
        self.buffer.extend_from_slice(&piece[over..]);
        self.buffer[at..at + over].copy_from_slice(&piece[..over]);
        self.unsynced.push(Span { from: at as u64, to: (at + piece.len()) as u64 });
        let replaced = Replaced::Bytes { at, count: piece.len(), old };
        self.undo.push(Undo { replaced, least: self.least, greatest });
    }

    fn sync(&mut self) {
        let unsynced = std::mem::take(&mut self.unsynced);
        let greatest = self.buffer.len();
        self.undo.push(Undo { replaced: Replaced::Ranges { unsynced }, least: self.least, greatest });
        self.least = self.buffer.len();
    }

    /// The disk after a crash that tore nothing: what was replaced is forgotten.
    fn crash(mut self) -> Disk {
        self.unsynced.clear();
        self.undo.clear();
        self.least = self.buffer.len();
        self
    }

    fn undone(&self) -> usize {
        let bytes = |undo: &Undo| match &undo.replaced {
            Replaced::Bytes { at, count, old } => at + count + old.len(),
            Replaced::Ranges { unsynced } => unsynced.iter().map(|span| (span.to - span.from) as usize).sum(),
        };
        self.undo.iter().map(|undo| bytes(undo) + undo.least + undo.greatest).sum()
    }
}

/// Whether the body spells an entry without a value.
fn is_entry(body: &[u8]) -> bool {
    matches!((body.first(), body.len()), (Some(1), 13) | (Some(2), 9) | (Some(5), 9))
}

struct Journal {
    disk: Disk,
    end: usize,
    room: Vec<u8>,
}

impl Journal {
    fn open(mut disk: Disk) -> Option<(Journal, Vec<Vec<u8>>)> {
        disk.sync();
        let mut room = vec![0; 65_541];
        let mut bodies = Vec::new();
        let mut at = 0;
        loop {
            let mut head = [0; 5];
            let got = disk.read(at, &mut head);
            if got == 0 || head[0] != 1 {
                break;
            }
            let size = u32::from_be_bytes([head[1], head[2], head[3], head[4]]) as usize;
            if got < 5 || size == 0 || size > 65_536 || at + size + 5 >= BOUND {
                return None;
            }
            let got = disk.read(at + 5, &mut room[..size + 1]);
            if got <= size || !is_entry(&room[..size]) {
                return None;
            }
            bodies.push(room[..size].to_vec());
            at += size + 5;
        }
        if bodies.is_empty() {
            disk = Disk { buffer: vec![0], least: 1, ..Disk::default() };
        }
        Some((Journal { disk, end: at + 1, room }, bodies))
    }

    fn append(&mut self, body: &[u8]) -> bool {
        let size = body.len();
        if self.end + size + 5 > BOUND {
            return false;
        }
        self.room[..4].copy_from_slice(&(size as u32).to_be_bytes());
        self.room[4..size + 4].copy_from_slice(body);
        self.room[size + 4] = 0;
        self.disk.write_at(self.end, &self.room[..size + 5]);
        self.disk.sync();
        self.disk.write_at(self.end - 1, &[1]);
        self.disk.sync();
        self.end += size + 5;
        true
    }
}

fn timed(count: usize) {
    let Some((mut journal, _)) = Journal::open(Disk::default()) else { return };
    let start = Instant::now();
    let mut added = 0;
    for _ in 0..count {
        if journal.append(black_box(EPOCH)) {
            added += 1;
        }
    }
    let appending = start.elapsed().as_nanos();
    black_box(journal.disk.undone());
    let disk = journal.disk.crash();
    let start = Instant::now();
    let Some((journal, bodies)) = Journal::open(disk) else { return };
    let opening = start.elapsed().as_nanos();
    println!("plain {added} {} {} {appending} {opening}", bodies.len(), journal.end);
}

fn main() {
    for count in [1_024, 16_384, 131_072] {
        timed(count);
    }
}
