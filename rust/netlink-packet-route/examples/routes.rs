//! `routes FILE` prints the routes of a stored dump.

use netlink_packet_route::RouteNetlinkMessage::NewRoute;
use netlink_packet_route::envelope::{NetlinkMessage, NetlinkPayload::InnerMessage};

fn main() -> Result<(), Box<dyn std::error::Error>> {
    let dump = std::fs::read(std::env::args().nth(1).ok_or("routes FILE")?)?;
    for message in NetlinkMessage::all(&dump) {
        if let InnerMessage(NewRoute(route)) = message?.payload {
            println!("{:?} {:?}", route.header.kind, route.attributes);
        }
    }
    Ok(())
}
