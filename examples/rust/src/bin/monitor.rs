//! `monitor` prints what changes in the kernel's tables of links, addresses, routes, rules and neighbours,
//! until it is ended; `monitor COUNT` so many messages.

use netlink_packet_route::RouteNetlinkMessage;
use netlink_packet_route::envelope::{NetlinkMessage, NetlinkPayload};
use netlink_sys::{Socket, SocketAddr, protocols::NETLINK_ROUTE};
use std::error::Error;

/// Groups of `linux/rtnetlink.h`, as bits: links, neighbours, and of both versions addresses, routes and rules.
const GROUPS: u32 = 0x1 | 0x4 | 0x10 | 0x40 | 0x80 | 0x100 | 0x400 | 1 << 18;

fn main() -> Result<(), Box<dyn Error>> {
    let count = std::env::args().nth(1);
    let mut left = count.map_or(Ok(usize::MAX), |count| count.parse())?;
    let mut socket = Socket::new(NETLINK_ROUTE)?;
    socket.bind(&SocketAddr::new(0, GROUPS))?;
    while left > 0 {
        let (datagram, _sender) = socket.recv_from_full()?;
        for message in NetlinkMessage::<RouteNetlinkMessage>::all(&datagram) {
            match message?.payload {
                NetlinkPayload::InnerMessage(change) => println!("{change:?}"),
                other => println!("{other:?}"),
            }
            left = left.saturating_sub(1);
        }
    }
    Ok(())
}
