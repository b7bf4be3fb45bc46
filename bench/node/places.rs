//! Where the nodes of this benchmark are: addresses of the loopback range.
use std::net::{Ipv4Addr, SocketAddrV4};

pub type Socket = (u32, u16);

pub const fn at(net: u32, host: u32) -> Socket {
    (0x7f29_0000 + net * 256 + host, 7000)
}

pub const ROUTER: Socket = at(7, 1);
pub const REPLICAS: [Socket; 5] = [at(0, 1), at(0, 2), at(0, 3), at(0, 4), at(0, 5)];
pub const MUX: Socket = at(9, 1);
pub const AGENTS: [Socket; 2] = [at(8, 1), at(8, 2)];

/// Where the machines' packets come from.
pub fn machines() -> impl Iterator<Item = Socket> {
    (0..65).map(|i| at(1, i + 1))
}

pub fn address(at: Socket) -> SocketAddrV4 {
    SocketAddrV4::new(Ipv4Addr::from_bits(at.0), at.1)
}
