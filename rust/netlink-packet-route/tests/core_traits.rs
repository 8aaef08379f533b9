//! Messages in the envelopes of `netlink-packet-core`: what is read and written is what the proved text
//! reads and writes.
#![cfg(feature = "core")]

#[allow(dead_code)]
mod common;

use netlink_packet_core::{Emitable, Nla, NlaBuffer, Parseable, ParseableParametrized};
use netlink_packet_route as library;
use netlink_packet_route::RouteNetlinkMessage;
use netlink_packet_route::envelope::NetlinkIterator;
use netlink_packet_route::framing;
use netlink_packet_route::route::{RouteAttribute, RouteLwEnCapType, RouteMessage};

type Envelope = netlink_packet_core::NetlinkMessage<RouteNetlinkMessage>;

/// The messages of the stored datagrams, each with its envelope.
fn stored() -> Vec<Vec<u8>> {
    let mut found = Vec::new();
    for (datagram, _) in common::lines_of("datagrams") {
        let mut walk = NetlinkIterator::new(&datagram);
        let mut at = 0;
        while let Some(message) = walk.next() {
            let length = message.expect("a message").length() as usize;
            found.push(datagram[at..at + length].to_vec());
            at = walk.offset();
        }
    }
    found
}

#[test]
fn envelopes_of_the_other_crate_hold_the_same_messages() {
    let mut count = 0;
    for bytes in stored() {
        let read = Envelope::deserialize(&bytes).expect("a message that is known");
        let ours = netlink_packet_route::envelope::NetlinkBuffer::new_checked(&bytes);
        let ours = netlink_packet_route::envelope::NetlinkMessage::<RouteNetlinkMessage>::try_from(
            &ours.expect("an envelope"),
        );
        let mut written = vec![0; read.buffer_len()];
        read.serialize(&mut written);
        let ours = ours.expect("a message").to_bytes().expect("its bytes");
        let padded = written.len().next_multiple_of(4);
        assert_eq!(padded, ours.len());
        assert_eq!(written[..], ours[..written.len()]);
        count += 1;
    }
    assert!(count > 100, "{count}");
}

#[test]
fn messages_and_attributes_are_read_by_the_other_traits() {
    let mut count = 0;
    for (bytes, _) in common::lines_of("route") {
        let Ok(message) = <RouteMessage as Parseable<[u8]>>::parse(&bytes) else {
            continue;
        };
        let mut written = vec![0; Emitable::buffer_len(&message)];
        Emitable::emit(&message, &mut written);
        assert_eq!(Ok(written), message.to_bytes());
        count += message
            .attributes
            .iter()
            .map(|a| again(a, &message))
            .sum::<usize>();
    }
    assert!(count > 100, "{count}");
}

/// An attribute that is written by the other crate's frame, and read again.
fn again(attribute: &RouteAttribute, message: &RouteMessage) -> usize {
    let mut bytes = vec![0; Emitable::buffer_len(attribute)];
    Emitable::emit(attribute, &mut bytes);
    assert_eq!(bytes.len(), 4 + attribute.value_len().next_multiple_of(4));
    let governing = message.attributes.iter().find_map(|other| match other {
        RouteAttribute::EncapType(kind) => Some(*kind),
        _ => None,
    });
    let header = &message.header;
    let context = (
        header.address_family,
        header.kind,
        governing.unwrap_or(RouteLwEnCapType::None),
    );
    let buffer = NlaBuffer::new(&bytes[..]);
    let read = RouteAttribute::parse_with_param(&buffer, context).expect("what was written");
    assert_eq!(read, *attribute);
    1
}

#[test]
fn unknown_attributes_go_to_and_fro() {
    let ours = framing::DefaultNla::new(0xc063, vec![1, 2, 3]);
    let theirs = netlink_packet_core::DefaultNla::from(ours.clone());
    let wanted = netlink_packet_core::DefaultNla::new(0xc063, vec![1, 2, 3]);
    assert_eq!(theirs, wanted);
    assert_eq!(framing::DefaultNla::from(theirs), ours);
}
