//! The message of one's own: neighbours as a kernel dumped them, and what `ip` said of them.

use netlink_packet_route::AddressFamily;
use netlink_packet_route::framing::Parseable;
use netlink_packet_route::net::IpAddr;
use netlink_packet_route::route::RouteType;
use npr_testing::{bytes_of, messages, same};
use std::test::Fail;
use template::neighbour_message::{NeighbourHeader, NeighbourMessage, read_link_layer_address};

/// `192.0.2.3 dev d0 lladdr 02:00:00:00:00:13 ref 1 probes 1 PROBE proto static`; `d0` is 3.
const PROBED: &str = "020000000300000010000001 08000100c0000203 0a000200020000000013 0000 \
    0800040001000000 140003009a1700002d0000002a00000001000000 05000c0004000000";

/// `2001:db8:1::2 dev d0 lladdr 02:00:00:00:00:22 router STALE`.
const STALE: &str = "0a0000000300000004008001 1400010020010db8000100000000000000000002 \
    0a000200020000000022 0000 0800040000000000 140003009c1700002c0000002c00000000000000";

#[test]
fn reads_neighbours(rt: HostRuntime) -> Result<(), Fail> {
    let lines = "
        020000000300000010000001 08000100c0000203 0a000200020000000013 0000 \
            0800040001000000 140003009a1700002d0000002a00000001000000 05000c0004000000 => \
            [Destination(192.0.2.3), \
            LinkLocalAddress([2, 0, 0, 0, 0, 19]), Probes(1), CacheInfo(NeighbourCacheInfo { \
            confirmed: 6042, used: 45, updated: 42, references: 1 }), \
            Other(DefaultNla { kind: 12, value: [4] })]
        0a0000000300000004008001 1400010020010db8000100000000000000000002 \
            0a000200020000000022 0000 0800040000000000 140003009c1700002c0000002c00000000000000 => \
            [Destination(2001:db8:1::2), \
            LinkLocalAddress([2, 0, 0, 0, 0, 34]), Probes(0), CacheInfo(NeighbourCacheInfo { \
            confirmed: 6044, used: 44, updated: 44, references: 0 })]";
    messages::<NeighbourMessage>(&rt, "", lines)
}

#[test]
fn reads_its_header(rt: HostRuntime) -> Result<(), Fail> {
    let bytes = bytes_of(&rt, &[PROBED])?;
    let message = NeighbourMessage::parse(rt.alloc(), bytes.as_slice())?;
    let header = NeighbourHeader {
        family: AddressFamily::Inet,
        ifindex: 3,
        state: 0x10,
        flags: 0,
        kind: RouteType::Unicast,
    };
    same(message.header, header)
}

#[test]
fn finds_a_link_layer_address(rt: HostRuntime) -> Result<(), Fail> {
    let ip = IpAddr::from([192, 0, 2, 3]);
    let probed = bytes_of(&rt, &[PROBED])?;
    let found = read_link_layer_address(rt.alloc(), probed.as_slice(), ip)?;
    same(found, Some(bytes_of(&rt, &["020000000013"])?))?;
    let stale = bytes_of(&rt, &[STALE])?;
    same(
        read_link_layer_address(rt.alloc(), stale.as_slice(), ip)?,
        None,
    )
}
