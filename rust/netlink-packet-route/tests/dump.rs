//! A dump of a kernel, as a program reads it.

use netlink_packet_route::RouteNetlinkMessage;
use netlink_packet_route::envelope::{NetlinkMessage, NetlinkPayload};

#[test]
fn routes_of_a_kernel() {
    let path = concat!(
        env!("CARGO_MANIFEST_DIR"),
        "/../../crates/nlshow/data/route-4.bin"
    );
    let dump = std::fs::read(path).expect("a stored dump");
    let mut routes = Vec::new();
    for message in NetlinkMessage::all(&dump) {
        match message.expect("a known message").payload {
            NetlinkPayload::InnerMessage(RouteNetlinkMessage::NewRoute(route)) => {
                routes.push(route)
            }
            NetlinkPayload::Done(_) => {}
            other => panic!("no route: {other:?}"),
        }
    }
    assert!(routes.len() > 10);
    assert!(
        routes
            .iter()
            .all(|route| route.header.destination_prefix_length <= 32)
    );
}
