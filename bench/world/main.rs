//! An ordinary Rust program that replays full schedules: `ordinary replay` or `ordinary replay --summary`.
mod agent;
mod config;
mod connections;
mod flows;
mod journal;
mod json;
mod leases;
mod manager;
mod managing;
mod messages;
mod mux;
#[path = "../plain/packet.rs"]
mod packet;
mod packets;
mod ranges;
mod schedule;
mod step;
mod transcript;
mod world;

use config::{Config, Fault};
use schedule::Event;
use std::io::{self, BufWriter, Read, Write};
use std::process::ExitCode;
use transcript::Transcript;
use world::World;

/// Whether muxes ask for redirects and agents take them.
pub const HAS_REDIRECTS: bool = cfg!(redirects);

/// Whether a disk is a journal, which is read from its first byte at each opening, and not what its entries come to.
pub const HAS_JOURNALS: bool = cfg!(journals);

const INPUT_LIMIT: u64 = 67_108_864;

struct Refusal {
    status: u8,
    line: String,
}

fn refuse<T>(status: u8, line: &str) -> Result<T, Refusal> {
    Err(Refusal { status, line: line.to_string() })
}

fn read_input() -> Result<Vec<u8>, Refusal> {
    let mut text = Vec::new();
    match io::stdin().lock().take(INPUT_LIMIT + 1).read_to_end(&mut text) {
        Err(_) => refuse(6, "read fault"),
        Ok(_) if text.len() as u64 > INPUT_LIMIT => refuse(5, "input too long"),
        Ok(_) => Ok(text),
    }
}

/// The configuration's text, and the schedule's where there is one.
fn cut(text: &[u8]) -> (&[u8], Option<&[u8]>) {
    let mut start = 0;
    for line in text.split_inclusive(|byte| *byte == b'\n') {
        let end = start + line.len();
        if line == b"---\n" || line == b"---" {
            return (&text[..start], Some(&text[end..]));
        }
        start = end;
    }
    (text, None)
}

fn read_schedule(text: &[u8]) -> Result<(Config, Vec<Event>), Refusal> {
    let (front, schedule) = cut(text);
    let config = match Config::read(front) {
        Ok(config) => config,
        Err(Fault::Json) => return refuse(3, "config json"),
        Err(Fault::Path(path)) => return refuse(3, &format!("config {path}")),
    };
    match schedule.ok_or(0).and_then(|schedule| schedule::read(schedule, &config)) {
        Ok(events) => Ok((config, events)),
        Err(line) => refuse(4, &format!("schedule line {line}")),
    }
}

fn play(config: &Config, events: &[Event], sums_up: bool) -> io::Result<()> {
    let mut out = BufWriter::with_capacity(1 << 16, io::stdout().lock());
    let mut lines = if sums_up { Transcript::counting() } else { Transcript::to(&mut out) };
    let mut world = World::new(config);
    for event in events {
        world.play(event, &mut lines)?;
    }
    let counts = lines.finish()?;
    if sums_up {
        write!(out, "{counts}")?;
    }
    out.flush()
}

fn run() -> Result<(), Refusal> {
    let words: Vec<String> = std::env::args().skip(1).collect();
    let sums_up = match words.iter().map(String::as_str).collect::<Vec<_>>()[..] {
        ["replay"] => false,
        ["replay", "--summary"] => true,
        _ => return refuse(2, "usage"),
    };
    let text = read_input()?;
    let (config, events) = read_schedule(&text)?;
    drop(text);
    play(&config, &events, sums_up).or_else(|_| refuse(7, "write fault"))
}

fn main() -> ExitCode {
    match run() {
        Ok(()) => ExitCode::SUCCESS,
        Err(refusal) => {
            eprintln!("{}", refusal.line);
            ExitCode::from(refusal.status)
        }
    }
}
