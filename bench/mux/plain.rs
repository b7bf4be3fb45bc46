//! The job of the proved program in plain Rust: a mux whose tables are the standard library's maps.
//! Takes the number of VIPs as an argument.
#[path = "../plain/aimed.rs"]
mod aimed;
#[path = "../plain/maps.rs"]
mod maps;
#[path = "../plain/mux.rs"]
#[allow(dead_code)]
mod mux;
#[path = "../plain/packet.rs"]
#[allow(dead_code)]
mod packet;
#[path = "../plain/processor.rs"]
mod processor;

use aimed::{ROWS, aim, all_ends, ends_of, fill, program};
use maps::WHO;
use mux::Mux;
use std::hint::black_box;

const PACKETS: usize = 60_000;
const TIMES: usize = 10;

fn main() {
    let vips: u16 = std::env::args().nth(1).and_then(|text| text.parse().ok()).unwrap_or(1);
    let mut mux = Mux::new(vips);
    mux.tick(0);
    let start = processor::used();
    let mut check = 0;
    for row in 0..ROWS {
        let ends = ends_of(row, vips, true);
        let step = mux.handle((0x0a00_0001, 7000), black_box(&program(row + 1, ends.low, ends.dport & !7)));
        check += step.sends.len() + usize::from(step.entry.is_some());
        black_box(step);
    }
    println!("{WHO} program 37 {vips} {ROWS} {ROWS} {} {check}", processor::used() - start);
    let mut out = Vec::with_capacity(65_507);
    let router = (0x0a07_0001, 7000);
    for size in [64, 1400] {
        let mut bytes = vec![0; size];
        fill(&mut bytes);
        let flows = all_ends(60_000, 1, false);
        let start = processor::used();
        let mut check = 0u64;
        for _ in 0..TIMES {
            for ends in &flows {
                aim(&mut bytes, *ends);
                check += u64::from(black_box(&bytes)[21]);
            }
        }
        println!("{WHO} aim {size} 1 60000 600000 {} {check}", processor::used() - start);
        for count in [10u32, 60_000] {
            for leased in [true, false] {
                let flows = all_ends(count, vips, leased);
                for ends in &flows {
                    aim(&mut bytes, *ends);
                    for _ in 0..3 {
                        let _ = mux.packet(&router, &bytes, &mut out);
                    }
                }
                let name = if leased { "range" } else { "endpoint" };
                for _ in 0..TIMES {
                    let start = processor::used();
                    let mut check = 0u64;
                    for _ in 0..PACKETS / flows.len() {
                        for ends in &flows {
                            aim(&mut bytes, *ends);
                            check += match mux.packet(&router, black_box(&bytes), &mut out) {
                                Ok(agent) => u64::from(agent) + u64::from(out[19]) + u64::from(out[28]),
                                Err(_cause) => 1_000_000,
                            };
                        }
                    }
                    let nanos = processor::used() - start;
                    println!("{WHO} {name} {size} {vips} {count} {PACKETS} {nanos} {check}");
                }
            }
        }
    }
}
