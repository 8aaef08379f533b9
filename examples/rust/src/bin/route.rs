//! `route` prints the request for a route by two next hops in hexadecimal digits; `route send` sends it
//! too, which takes the rights of root, and prints the kernel's answer.

use netlink_packet_route::envelope::{Answer, Conversation, NetlinkIterator};
use netlink_packet_route::route::{
    RouteAttribute, RouteMessage, RouteNextHop, RouteProtocol, RouteScope, RouteType,
};
use netlink_packet_route::{AddressFamily, request};
use netlink_sys::{Socket, SocketAddr, protocols::NETLINK_ROUTE};
use std::error::Error;
use std::net::Ipv4Addr;

const NUMBER: u32 = 1;

/// A next hop by this interface and this gateway, and how much goes by it.
fn next_hop(interface: u32, gateway: Ipv4Addr, weight: u8) -> RouteNextHop {
    let mut hop = RouteNextHop::default();
    hop.interface_index = interface;
    hop.hops = weight - 1;
    hop.attributes = vec![RouteAttribute::Gateway(gateway.into())];
    hop
}

/// The route to 203.0.113.0/24.
fn route() -> RouteMessage {
    let mut route = RouteMessage::default();
    route.header.address_family = AddressFamily::Inet;
    route.header.destination_prefix_length = 24;
    route.header.table = 254;
    route.header.protocol = RouteProtocol::Static;
    route.header.scope = RouteScope::Universe;
    route.header.kind = RouteType::Unicast;
    let hops = vec![
        next_hop(2, Ipv4Addr::new(192, 0, 2, 1), 3),
        next_hop(3, Ipv4Addr::new(198, 51, 100, 1), 1),
    ];
    route.attributes = vec![
        RouteAttribute::Destination(Ipv4Addr::new(203, 0, 113, 0).into()),
        RouteAttribute::MultiPath(hops),
    ];
    route
}

/// Sends the request, and prints how the kernel's answer ends.
fn send(request: &[u8]) -> Result<(), Box<dyn Error>> {
    let mut socket = Socket::new(NETLINK_ROUTE)?;
    socket.bind_auto()?;
    socket.send_to(request, &SocketAddr::new(0, 0), 0)?;
    let mut conversation = Conversation::new(NUMBER, 0);
    while !conversation.is_over() {
        let (datagram, _sender) = socket.recv_from_full()?;
        let mut walk = NetlinkIterator::new(&datagram);
        while let Some(answer) = conversation.next(&mut walk) {
            if let Answer::Ended(end) = answer {
                println!("{end:?}");
            }
        }
    }
    Ok(())
}

fn main() -> Result<(), Box<dyn Error>> {
    let request = request::add(NUMBER, route()).to_bytes()?;
    let digits: String = request.iter().map(|byte| format!("{byte:02x}")).collect();
    println!("{digits}");
    match std::env::args().nth(1).as_deref() {
        Some("send") => send(&request),
        _ => Ok(()),
    }
}
