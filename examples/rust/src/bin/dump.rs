//! `dump KIND` prints what the kernel has in that table, over `netlink-proto`. A kind is link, address, route, rule,
//! neighbour, next_hop, nsid, netconf, address_label or neighbour_table.

use futures::StreamExt;
use netlink_packet_core::{
    NLM_F_DUMP, NLM_F_REQUEST, NetlinkHeader, NetlinkMessage, NetlinkPayload,
};
use netlink_packet_route::RouteNetlinkMessage;
use netlink_proto::sys::{SocketAddr, protocols::NETLINK_ROUTE};
use std::error::Error;

/// What asks for a whole table.
fn request(table: &str) -> Option<RouteNetlinkMessage> {
    match table {
        "link" => Some(RouteNetlinkMessage::GetLink(Default::default())),
        "address" => Some(RouteNetlinkMessage::GetAddress(Default::default())),
        "route" => Some(RouteNetlinkMessage::GetRoute(Default::default())),
        "rule" => Some(RouteNetlinkMessage::GetRule(Default::default())),
        "neighbour" => Some(RouteNetlinkMessage::GetNeighbour(Default::default())),
        "next_hop" => Some(RouteNetlinkMessage::GetNextHop(Default::default())),
        "nsid" => Some(RouteNetlinkMessage::GetNsId(Default::default())),
        "netconf" => Some(RouteNetlinkMessage::GetNetconf(Default::default())),
        "address_label" => Some(RouteNetlinkMessage::GetAddressLabel(Default::default())),
        "neighbour_table" => Some(RouteNetlinkMessage::GetNeighbourTable(Default::default())),
        _ => None,
    }
}

#[tokio::main(flavor = "current_thread")]
async fn main() -> Result<(), Box<dyn Error>> {
    let table = std::env::args().nth(1).unwrap_or_default();
    let request = request(&table).ok_or("usage: dump KIND")?;
    let mut header = NetlinkHeader::default();
    header.flags = NLM_F_REQUEST | NLM_F_DUMP;

    let (connection, handle, _events) = netlink_proto::new_connection(NETLINK_ROUTE)?;
    tokio::spawn(connection);
    let message = NetlinkMessage::new(header, NetlinkPayload::from(request));
    let mut answer = handle.request(message, SocketAddr::new(0, 0))?;
    while let Some(message) = answer.next().await {
        match message.payload {
            NetlinkPayload::InnerMessage(entry) => println!("{entry:?}"),
            NetlinkPayload::Error(refusal) => return Err(refusal.to_string().into()),
            _ => {}
        }
    }
    Ok(())
}
