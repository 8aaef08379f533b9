//! What the feature `serde` makes of stored messages, as JSON. The expected texts are written by hand, by
//! the layouts of the kernel's headers.
#![cfg(feature = "serde")]

#[allow(dead_code)]
mod common;

use netlink_packet_route as library;
use netlink_packet_route::RouteNetlinkMessage;
use netlink_packet_route::envelope::{ErrorAttribute, NetlinkMessage};
use netlink_packet_route::framing::DefaultNla;
use netlink_packet_route::link::LinkMessage;
use netlink_packet_route::neighbour::NeighbourState;
use netlink_packet_route::route::RouteMessage;
use netlink_packet_route::tc::TcMessage;
use serde_json::{Value, json, to_value};

/// The bytes of a line of a stored file.
fn stored(file: &str, digits: &str) -> Vec<u8> {
    let bytes = common::unhex(&digits.replace([' ', '\n'], ""));
    let mut lines = common::lines_of(file).into_iter();
    assert!(lines.any(|(line, _)| line == bytes));
    bytes
}

fn shown(value: impl serde::Serialize) -> Value {
    to_value(value).expect("each value has its JSON")
}

#[test]
fn a_route() {
    let digits = "02180000fe04000100000000 080001000a000100 080005000a000009 0800040003000000 080006004d000000";
    let route = RouteMessage::try_from(&stored("route", digits)[..]).expect("a route");
    let expected = json!({
        "header": {
            "address_family": "Inet",
            "destination_prefix_length": 24,
            "source_prefix_length": 0,
            "tos": 0,
            "table": 254,
            "protocol": "Static",
            "scope": "Universe",
            "kind": "Unicast",
            "flags": 0,
        },
        "attributes": [
            { "Destination": { "Inet": "10.0.1.0" } },
            { "Gateway": { "Inet": "10.0.0.9" } },
            { "Oif": 3 },
            { "Priority": 77 },
        ],
    });
    assert_eq!(shown(route), expected);
}

/// A bridge, with its flags `IFF_UP`, `IFF_BROADCAST` and `IFF_MULTICAST`, and those of a VLAN.
#[test]
fn a_link() {
    let digits =
        "07000100150000000310000000000000 0800030062723000 08000a0015000000 0800040078050000
        0500100002000000 0a0001008e95082faafd0000 0c001a000800020006000100";
    let link = LinkMessage::try_from(&stored("link", digits)[..]).expect("a link");
    let expected = json!({
        "header": {
            "interface_family": "Bridge",
            "link_layer_type": "Ether",
            "index": 21,
            "flags": 0x1003,
            "change_mask": 0,
        },
        "attributes": [
            { "IfName": "br0" },
            { "Controller": 21 },
            { "Mtu": 1400 },
            { "OperState": "Down" },
            { "Address": [0x8e, 0x95, 0x08, 0x2f, 0xaa, 0xfd] },
            { "AfSpecBridge": [{ "VlanInfo": { "flags": 6, "vid": 1 } }] },
        ],
    });
    assert_eq!(shown(link), expected);
}

/// The discipline 10: of the class 1:10, as `tc` writes them.
#[test]
fn a_discipline() {
    let digits =
        "0000000002000000000010001000010000000000 0d00010066715f636f64656c00000000 4c000200
        08000200e8030000 0800050000010000 080006002c010000 08000300409c0000 08000100b80b0000
        0800040000000000 08000700e8030000 0800090000004000 0800080020000000";
    let discipline = TcMessage::try_from(&stored("tc", digits)[..]).expect("a discipline");
    let expected = json!({
        "header": {
            "family": "Unspec",
            "index": 2,
            "handle": { "major": 0x10, "minor": 0 },
            "parent": { "major": 1, "minor": 0x10 },
            "info": 0,
        },
        "attributes": [
            { "Kind": "fq_codel" },
            { "Options": { "FqCodel": [
                { "Limit": 1000 },
                { "Flows": 256 },
                { "Quantum": 300 },
                { "Interval": 40_000 },
                { "Target": 3000 },
                { "Ecn": 0 },
                { "CeThreshold": 1000 },
                { "MemoryLimit": 0x40_0000 },
                { "DropBatchSize": 32 },
            ] } },
        ],
    });
    assert_eq!(shown(discipline), expected);
}

/// The end of a dump, with its envelope.
#[test]
fn an_envelope() {
    let datagram = [20, 0, 0, 0, 3, 0, 2, 0, 7, 0, 0, 0, 9, 0, 0, 0, 0, 0, 0, 0];
    let mut all = NetlinkMessage::<RouteNetlinkMessage>::all(&datagram);
    let message = all.next().expect("a message").expect("the end");
    let expected = json!({
        "header": {
            "length": 20,
            "message_type": 3,
            "flags": 2,
            "sequence_number": 7,
            "port_number": 9,
        },
        "payload": { "Done": { "code": 0, "extended_ack": [] } },
    });
    assert_eq!(shown(message), expected);
}

#[test]
fn what_is_kept_and_sets_are_numbers() {
    let kept = ErrorAttribute::Other(DefaultNla::new(49_251, vec![222, 173]));
    assert_eq!(
        shown(kept),
        json!({ "Other": { "kind": 49_251, "value": [222, 173] } })
    );
    let state = NeighbourState::Reachable | NeighbourState::Noarp;
    assert_eq!(shown(state), json!(0x42));
}
