//! What comes to the mux's node: the same work over and over, until this program is ended.
//! `drive dropped`, `drive packet BYTES FLOWS` or `drive entry`.
#[path = "../plain/aimed.rs"]
#[allow(dead_code)]
mod aimed;
#[path = "../plain/packet.rs"]
#[allow(dead_code)]
mod packet;
#[path = "places.rs"]
#[allow(dead_code)]
mod places;

use aimed::{aim, all_ends, fill};
use places::{AGENTS, MUX, REPLICAS, ROUTER, Socket, address};
use std::net::UdpSocket;
use std::time::Duration;

const VIPS: u16 = 64;

fn socket(at: Socket) -> UdpSocket {
    UdpSocket::bind(address(at)).expect("an address of the loopback range")
}

fn to_mux(from: Socket) -> UdpSocket {
    let socket = socket(from);
    socket.connect(address(MUX)).expect("an address of the loopback range");
    socket
}

/// Datagrams of eight bytes without a frame.
fn drop_each(router: &UdpSocket) -> ! {
    loop {
        let _ = router.send(&[7; 8]);
    }
}

/// TCP packets of so many flows to the endpoints of the VIPs.
fn forward_each(router: &UdpSocket, size: usize, flows: u32) -> ! {
    let ends = all_ends(flows, VIPS, false);
    let mut frame = vec![2; size + 1];
    fill(&mut frame[1..]);
    loop {
        for ends in &ends {
            aim(&mut frame[1..], *ends);
            let _ = router.send(&frame);
        }
    }
}

/// A Program of lease 1 at an epoch.
fn program(epoch: u64) -> [u8; 37] {
    let mut bytes = aimed::program(1, 0x0200, 1024);
    bytes[3..11].copy_from_slice(&epoch.to_be_bytes());
    bytes
}

/// Whether the answer to it comes. Hellos come too.
fn is_answered(replica: &UdpSocket, epoch: u64) -> bool {
    let mut answer = [0; 64];
    while let Ok(count) = replica.recv(&mut answer) {
        if count == 27 && answer[2] == 17 && answer[3..11] == epoch.to_be_bytes() {
            return true;
        }
    }
    false
}

/// Programs, each at a higher epoch than the one before, once that is answered.
fn raise_each(replica: &UdpSocket) -> ! {
    replica.set_read_timeout(Some(Duration::from_millis(50))).expect("a time");
    let mut epoch = 1;
    loop {
        let _ = replica.send(&program(epoch));
        epoch += u64::from(is_answered(replica, epoch));
    }
}

fn main() {
    let words: Vec<String> = std::env::args().skip(1).collect();
    let words: Vec<&str> = words.iter().map(String::as_str).collect();
    let _agents = AGENTS.map(socket);
    let replicas = REPLICAS.map(to_mux);
    let router = to_mux(ROUTER);
    match words[..] {
        ["dropped"] => drop_each(&router),
        ["packet", size, flows] => {
            forward_each(&router, size.parse().expect("a size"), flows.parse().expect("a number of flows"))
        }
        ["entry"] => raise_each(&replicas[0]),
        _ => panic!("dropped, packet BYTES FLOWS or entry"),
    }
}
