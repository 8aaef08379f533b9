//! The layer that is written by hand.

use netlink_packet_route::envelope::{EnvelopeError, NetlinkMessage, NetlinkPayload};
use netlink_packet_route::framing::{AttributeSet, DecodeError};
use netlink_packet_route::neighbour::NeighbourState;
use netlink_packet_route::request::dump;
use netlink_packet_route::route::{RouteAddress, RouteAttribute, RouteMessage, RouteNextHop};
use netlink_packet_route::tc::{TcAttribute, TcHandle, TcHeader, TcMessage};
use netlink_packet_route::{AddressFamily, Fault, MessageKind, RouteNetlinkMessage, locate};
use std::net::Ipv4Addr;

/// A route to 192.0.2.0/24.
fn route() -> RouteMessage {
    let mut route = RouteMessage::default();
    route.header.address_family = AddressFamily::Inet;
    route.header.destination_prefix_length = 24;
    let network = RouteAddress::from(Ipv4Addr::new(192, 0, 2, 0));
    route.attributes.push(RouteAttribute::Destination(network));
    route
}

#[test]
fn messages_become_bytes_and_come_back() {
    let bytes = route().to_bytes().expect("a route that can be written");
    assert_eq!(bytes[12..], [8, 0, 1, 0, 192, 0, 2, 0]);
    assert_eq!(RouteMessage::try_from(&bytes[..]), Ok(route()));
    let refused = RouteMessage::try_from(&bytes[..13]);
    assert_eq!(refused, Err(DecodeError::AttributeTooShort { got: 1 }));
}

#[test]
fn requests_become_bytes() {
    let bytes = dump(7, route())
        .to_bytes()
        .expect("a request that can be written");
    assert_eq!(bytes.len(), 16 + 20);
    assert_eq!(bytes[4..12], [26, 0, 1, 3, 7, 0, 0, 0]);
}

#[test]
fn a_datagram_is_walked() {
    let request = dump(7, route());
    let mut datagram = request.to_bytes().expect("a request");
    datagram.extend([17, 0, 0, 0, 26, 0, 0, 0, 0, 0, 0, 0, 0, 0, 0, 0, 2, 0, 0, 0]);
    datagram.extend(request.to_bytes().expect("a request"));
    datagram.push(0);
    let found: Vec<_> = NetlinkMessage::<RouteNetlinkMessage>::all(&datagram).collect();
    let end = EnvelopeError::MessageTooShort {
        offset: 92,
        left: 1,
    };
    assert_eq!(found.len(), 4);
    for at in [0, 2] {
        let message = found[at].as_ref().expect("the request");
        let wanted = NetlinkPayload::InnerMessage(RouteNetlinkMessage::GetRoute(route()));
        assert_eq!(message.payload, wanted);
    }
    let short = found[1].as_ref().expect_err("a header of one byte");
    assert_eq!(
        short.to_string(),
        "1 bytes, where a header of 12 is wanted, at byte 52, in the message of type 26 at byte 36"
    );
    assert_eq!(found[3], Err(Fault::Envelope(end)));
}

/// A route with a table of two bytes, and one whose next hop has a gateway of three.
#[test]
fn a_refusal_tells_what_and_where() {
    let mut table = vec![36, 0, 0, 0, 24, 0, 0, 0, 0, 0, 0, 0, 0, 0, 0, 0];
    table.extend([2, 0, 0, 0, 254, 3, 0, 1, 0, 0, 0, 0, 6, 0, 15, 0]);
    table.extend([1, 2, 0, 0]);
    let mut hop = vec![48, 0, 0, 0, 24, 0, 0, 0, 0, 0, 0, 0, 0, 0, 0, 0];
    hop.extend([2, 0, 0, 0, 254, 3, 0, 1, 0, 0, 0, 0, 20, 0, 9, 0]);
    hop.extend([16, 0, 0, 0, 2, 0, 0, 0, 7, 0, 5, 0, 192, 0, 2, 0]);
    let datagram = [table, hop].concat();
    let found = NetlinkMessage::all(&datagram).map(|it| it.expect_err("a refusal").to_string());
    let texts: Vec<_> = found.collect();
    let wanted = [
        "a value of 2 bytes at RTA_TABLE (15), where 4 are wanted, at byte 28, in the message of type 24 at byte 0",
        "a value of 3 bytes at RTA_GATEWAY (5), where 4 are wanted, in RTA_MULTIPATH (9) at byte 64, in the message of type 24 at byte 36",
    ];
    assert_eq!(texts, wanted);
    let refused = locate(MessageKind::Route, &datagram[16..36]);
    let place = refused.expect_err("a refusal");
    assert_eq!((place.offset, place.wanted), (12, Some((4, 4))));
    assert_eq!(place.holder, Some(AttributeSet::Route.at(15)));
}

#[test]
fn copies_are_equal_and_apart() {
    let (first, mut second) = (route(), route().clone());
    assert_eq!(first, second);
    second.attributes.clear();
    assert_ne!(first, second);
}

#[test]
fn states_of_neighbours_are_numbers_and_names() {
    assert_eq!(u16::from(NeighbourState::Stale), 4);
    let two = NeighbourState::from(0x42);
    assert_eq!(two, NeighbourState::Reachable | NeighbourState::Noarp);
    let texts = [two, NeighbourState::None, NeighbourState::Failed].map(|s| s.to_string());
    assert_eq!(texts, ["reachable | noarp", "none", "failed"]);
}

/// The discipline `clsact` of the interface 2, by its parts.
#[test]
fn messages_of_traffic_control_have_parts() {
    let handle = TcHandle {
        major: 0xffff,
        minor: 0,
    };
    let header = TcHeader {
        index: 2,
        handle,
        ..TcHeader::default()
    };
    let attributes = vec![TcAttribute::Kind("clsact".into())];
    let message = TcMessage::from_parts(header, attributes.clone());
    let bytes = [
        0, 0, 0, 0, 2, 0, 0, 0, 0, 0, 255, 255, 0, 0, 0, 0, 0, 0, 0, 0, // the header
        11, 0, 1, 0, 99, 108, 115, 97, 99, 116, 0, 0, // TCA_KIND
    ];
    assert_eq!(message.to_bytes().as_deref(), Ok(&bytes[..]));
    assert_eq!(message.into_parts(), (header, attributes));
    let alone = TcMessage::with_index(-7).to_bytes();
    let mut expected = [0; 20];
    expected[4..8].copy_from_slice(&[249, 255, 255, 255]);
    assert_eq!(alone.as_deref(), Ok(&expected[..]));
}

#[test]
fn defaults_are_those_of_the_proved_text() {
    assert!(RouteNextHop::default().attributes.is_empty());
}
