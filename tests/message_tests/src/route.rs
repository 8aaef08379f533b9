//! Routes of the kernel and of `ip`, and damaged ones.

use netlink_packet_route::AddressFamily;
use netlink_packet_route::framing::{DecodeError, EmitError, Header};
use netlink_packet_route::route::{
    RouteAttribute, RouteFlags, RouteHeader, RouteLwEnCapType, RouteMessage, RouteMessageBuffer,
    RouteProtocol, RouteScope, RouteType,
};
use npr_testing::{INET, bytes_of, check_of, holds, members, messages, same, writes};
use std::test::Fail;

/// `INET` with the type multicast, and with the family mpls.
const MULTICAST: &str = "02000000fe03000500000000";

const MPLS: &str = "1c000000fe03000100000000";

/// What rests on no header. What follows a structure at the front of its value is dropped.
#[test]
fn reads_messages(rt: HostRuntime) -> Result<(), Fail> {
    let lines = "
        => []
        0c000800 08000200 dc050000 => [Metrics([Mtu(1500)])]
        06001c00 01bb0000 => [Sport(443)]
        08001f00 00012345 => [Flowlabel(74565)]
        0a001200 02000a00 00010000 => [Via(Inet(10.0.0.1))]
        080063c0 deadbeef => [Other(DefaultNla { kind: 49251, value: [222, 173, 190, 239] })]
        04006380 => [Other(DefaultNla { kind: 32867, value: [] })]
        08000b00 fe00fa00 => [Realm(RouteRealm { source: 250, destination: 254 })]
        0b000800 07001000 62627200 -> 0c000800 08001000 62627200 => \
            [Metrics([CcAlgo(\"bbr\")])] # A name without its zero.
        05001400 01 -> 05001400 01000000 => [Preference(High)] # Padding that is missing.
        06001c0001bb0000 06001d0000350000 08001f0000012345 08000b00fe00fa00 0800030007000000 \
            08000f0000010000 05001b0006000000 => \
            [Sport(443), Dport(53), Flowlabel(74565), Realm(RouteRealm { source: 250, destination: 254 }), \
            Iif(7), Table(256), IpProto(6)]
        0600150002000000 05001a0000000000 0a00120002000a0000010000 080063c0deadbeef 0500140001 -> \
            0600150002000000 05001a0000000000 0a00120002000a0000010000 080063c0deadbeef 0500140001000000 => \
            [EncapType(Ip), TtlPropagate(Disabled), Via(Inet(10.0.0.1)), \
            Other(DefaultNla { kind: 49251, value: [222, 173, 190, 239] }), Preference(High)]
        14000800 08000200dc050000 0700100062627200 -> 14000800 08000200dc050000 0800100062627200 => \
            [Metrics([Mtu(1500), CcAlgo(\"bbr\")])]
        25000c00 01000000 00010000 00000000 00000000 00000000 00000000 00000000 09000000 ff000000 \
            1c001100 0300000000000000 0001000000000000 0500000000000000 -> \
            24000c00 01000000 00010000 00000000 00000000 00000000 00000000 00000000 09000000 \
            1c001100 0300000000000000 0001000000000000 0500000000000000 => \
            [CacheInfo(RouteCacheInfo { clntref: 1, last_use: 256, expires: 0, error: 0, used: 0, id: 0, \
            ts: 0, ts_age: 9 }), MfcStats(RouteMfcStats { packets: 3, bytes: 256, wrong_if: 5 })]
        0a000800 08000200 dc050000 => an attribute of length 8 with 6 bytes left
        08000400 01000000 0000 => 2 bytes, where an attribute begins with 4
        03000100 => an attribute of length 3 with 4 bytes left
        05001500 01000000 => a value of 1 bytes at attribute 21 of Route
        07000100 0a000000 => a value of 3 bytes at attribute 1 of Route
        07000200 0a000000 => a value of 3 bytes at attribute 2 of Route
        09001200 02000a00 00000000 => a value of 3 bytes at attribute 18 of Route
        05001200 02000000 => 1 bytes, where a header of 2 is wanted
        0a001200 02010a00 00010000 => a gateway of address family 258";
    messages::<RouteMessage>(&rt, INET, lines)
}

/// A route by a next hop object, and one that expires; and headers that are cut.
#[test]
fn reads_whole_messages(rt: HostRuntime) -> Result<(), Fail> {
    let lines = "
        02100000fe03000100000000 080001000a060000 08001e002a000000 => \
            [Destination(Inet(10.6.0.0)), NhId(42)]
        0a400000fe03000100000000 1400010020010db8000100000000000000000000 \
            08001700b80b0000 0800040002000000 => \
            [Destination(Inet6(2001:db8:1::)), \
            Expires(3000), Oif(2)]
        => 0 bytes, where a header of 12 is wanted
        020000 => 3 bytes, where a header of 12 is wanted
        02000000fe03000500000000 08001700 b80b0000 => \
            a value of 4 bytes at attribute 23 of Route # Multicast.";
    messages::<RouteMessage>(&rt, "", lines)
}

/// What rests on the family or the type of the header.
#[test]
fn reads_by_header(rt: HostRuntime) -> Result<(), Fail> {
    let line = "08001300 0a000001 => \
        [NewDestinationAddress(Inet(10.0.0.1))]";
    messages::<RouteMessage>(&rt, INET, line)?;
    let line = "0c001700 b80b0000 00000000 => [MulticastExpires(3000)]";
    messages::<RouteMessage>(&rt, MULTICAST, line)?;
    let lines = "
        => []
        08000100 000641ff => \
            [Destination(Mpls(MplsLabel { label: 100, traffic_class: 0, bottom_of_stack: true, ttl: 255 }))]
        09001300 000641ff 07000000 -> 08001300 000641ff => \
            [NewDestination([MplsLabel { label: 100, traffic_class: 0, bottom_of_stack: true, ttl: 255 }])] \
            # A byte behind the last label.
        09001300 000641ff 07000000 08000500 000641ff -> 08001300 000641ff 08000500 000641ff => \
            [NewDestination([MplsLabel { label: 100, traffic_class: 0, bottom_of_stack: true, ttl: 255 }]), \
            Gateway(Mpls(MplsLabel { label: 100, traffic_class: 0, bottom_of_stack: true, ttl: 255 }))]";
    messages::<RouteMessage>(&rt, MPLS, lines)
}

/// A family and a type count by their variants: these, made by hand, are not inet nor multicast.
#[test]
fn reads_under_other_forms(rt: HostRuntime) -> Result<(), Fail> {
    let context = (
        AddressFamily::Other(2),
        RouteType::Other(5),
        RouteLwEnCapType::None,
    );
    let lines = "
        08001300 0a000001 => NewDestinationAddress(Other([10, 0, 0, 1]))
        08001700 b80b0000 => Expires(3000)";
    members::<RouteAttribute>(&rt, context, lines)
}

/// A name of 65,527 letters has a value of 65,528 bytes, and its list is one of 65,532.
#[test]
fn says_what_does_not_fit(rt: HostRuntime) -> Result<(), Fail> {
    let kind = 8;
    let len = 65_532;
    let unfit = check_of::<RouteMessage>(&rt, &[INET, "ffff0800 fbff1000"], 65_527)?;
    same(unfit, Err(EmitError::TooLong { kind, len }))
}

#[test]
fn headers(rt: HostRuntime) -> Result<(), Fail> {
    let text = "02100000fe03000500000000";
    let bytes = bytes_of(&rt, &[text])?;
    let header = RouteHeader::parse(bytes.as_slice())?;
    let wanted = RouteHeader {
        address_family: AddressFamily::Inet,
        destination_prefix_length: 16,
        source_prefix_length: 0,
        tos: 0,
        table: RouteHeader::RT_TABLE_MAIN,
        protocol: RouteProtocol::Boot,
        scope: RouteScope::Universe,
        kind: RouteType::Multicast,
        flags: RouteFlags::default(),
    };
    same(header, wanted)?;
    let layout = RouteMessageBuffer::from(&header);
    holds(layout.to_bytes().as_slice() == bytes.as_slice())?;
    writes(&rt, header, &[text])
}

#[test]
fn a_short_header() -> Result<(), Fail> {
    let short = DecodeError::HeaderTooShort { got: 11, want: 12 };
    same(RouteMessageBuffer::parse(&[0; 11]).err(), Some(short))
}
