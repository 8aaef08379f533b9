//! Attributes one after the other, and messages that are read into again.

use netlink_packet_route::framing::{DecodeError, Parseable};
use netlink_packet_route::route::{RouteLwEnCapType, RouteMessage, RouteType};
use netlink_packet_route::rule::RuleMessage;
use netlink_packet_route::{AddressFamily, MessageKind, MessageType};
use npr_testing::{INET, bytes_of, holds, same, shows};
use std::test::Fail;

/// A rule header: family inet, action to table.
const RULE: &str = "020000000000000001000000";

/// An encapsulation, the type behind it that governs it, and bytes that are no attribute.
const CUT: [&str; 4] = [
    INET,
    "0c001600 08000100 000641ff",
    "06001500 01000000",
    "080004",
];

#[test]
fn what_governs_is_known_at_once(rt: HostRuntime) -> Result<(), Fail> {
    let bytes = bytes_of(&rt, &CUT)?;
    let attributes = RouteMessage::attributes(rt.alloc(), bytes.as_slice())?;
    same(attributes.header().kind, RouteType::Unicast)?;
    let (family, kind, encap_type) = attributes.context();
    same(family, AddressFamily::Inet)?;
    same(kind, RouteType::Unicast)?;
    same(encap_type, RouteLwEnCapType::Mpls)?;
    same(attributes.rest().len(), 23)
}

#[test]
fn a_fault_is_the_last(rt: HostRuntime) -> Result<(), Fail> {
    let bytes = bytes_of(&rt, &CUT)?;
    let mut attributes = RouteMessage::attributes(rt.alloc(), bytes.as_slice())?;
    let text = "Some(Ok(Encap([Mpls(Destination([MplsLabel { label: 100, traffic_class: 0, \
        bottom_of_stack: true, ttl: 255 }]))])))";
    shows(&rt, attributes.next(), text)?;
    shows(&rt, attributes.next(), "Some(Ok(EncapType(Mpls)))")?;
    let fault = "Some(Err(AttributeTooShort { got: 3 }))";
    shows(&rt, attributes.next(), fault)?;
    holds(attributes.next().is_none())?;
    holds(attributes.rest().is_empty())
}

#[test]
fn a_header_comes_first(rt: HostRuntime) -> Result<(), Fail> {
    let short = RouteMessage::attributes(rt.alloc(), &[2, 0]);
    let fault = DecodeError::HeaderTooShort { got: 2, want: 12 };
    same(short.err(), Some(fault))
}

/// A message is read over another, and a refusal leaves nothing.
#[test]
fn a_message_is_read_into_again(rt: HostRuntime) -> Result<(), Fail> {
    let alloc = rt.alloc();
    let long = bytes_of(&rt, &[RULE, "08000f00 fe000000", "08000e00 ffffffff"])?;
    let short = bytes_of(&rt, &[RULE, "08000600 05000000"])?;
    let mut message = RuleMessage::parse(alloc, long.as_slice())?;
    let room = message.attributes.capacity();
    message.parse_into(alloc, short.as_slice())?;
    holds(message == RuleMessage::parse(alloc, short.as_slice())?)?;
    same(message.attributes.capacity(), room)?;
    let fault = DecodeError::HeaderTooShort { got: 3, want: 12 };
    same(message.parse_into(alloc, &[2, 0, 0]).err(), Some(fault))?;
    holds(message == RuleMessage::new(alloc))
}

/// `RTM_GETNEIGH`, `RTM_SETLINK`, `RTM_GETLINKPROP` and `RTM_NEWQDISC`.
#[test]
fn a_type_has_a_kind() -> Result<(), Fail> {
    same(MessageType::of(30).kind(), Some(MessageKind::Neighbour))?;
    same(MessageType::of(19).kind(), Some(MessageKind::Link))?;
    same(MessageType::of(110).kind(), Some(MessageKind::Link))?;
    same(
        MessageType::of(67).kind(),
        Some(MessageKind::NeighbourTable),
    )?;
    same(MessageType::of(118).kind(), Some(MessageKind::NextHop))?;
    same(MessageType::of(102).kind(), Some(MessageKind::Tc))?;
    same(MessageType::of(50).kind(), Some(MessageKind::TcAction))?;
    same(MessageType::of(84).kind(), None)
}
