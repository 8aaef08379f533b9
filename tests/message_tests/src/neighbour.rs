//! Neighbours of a kernel and of `ip`, and damaged ones.

use bitflags::Flags;
use netlink_packet_route::framing::{
    At, AttributeSet, DecodeError, EmitError, Emitable, Header, NlaBuffer, ParseableParametrized,
};
use netlink_packet_route::neighbour::{
    NeighbourAddress, NeighbourAttribute, NeighbourCacheInfo, NeighbourExtFlags, NeighbourFlags,
    NeighbourHeader, NeighbourMessage, NeighbourMessageBuffer, NeighbourState,
};
use netlink_packet_route::net::{IpAddr, Ipv4Addr, Ipv6Addr};
use netlink_packet_route::{AddressFamily, MessageKind, RouteNetlinkMessage};
use npr_testing::{FIRST, bytes_of, check_of, holds, members, messages, same, shows, writes};
use std::alloc::{AllocError, Global};
use std::test::Fail;

/// A header: inet, the third interface, reachable.
const HEADER: &str = "02000000 03000000 0200 00 00";

/// The bytes of this layout are the bytes.
fn has_layout(bytes: &[u8], layout: NeighbourMessageBuffer) -> Result<(), Fail> {
    same(NeighbourMessageBuffer::parse(bytes)?, layout)?;
    holds(layout.to_bytes().as_slice() == bytes)
}

/// The bytes are a header that is printed so.
fn is_header(rt: &impl AllocGlobal, text: &str, wanted: &str) -> Result<(), Fail> {
    let bytes = bytes_of(rt, &[text])?;
    let header = NeighbourHeader::parse(bytes.as_slice())?;
    has_layout(bytes.as_slice(), NeighbourMessageBuffer::from(&header))?;
    shows(rt, header, wanted)?;
    writes(rt, header, &[text])
}

/// The message of each line begins with the header that is printed so.
fn headers(rt: &impl AllocGlobal, lines: &str) -> Result<(), Fail> {
    for line in lines.lines() {
        if let Some((text, wanted)) = line.split_once("=>") {
            is_header(rt, text, wanted.trim())?;
        }
    }
    Ok(())
}

/// Those of the messages below: PROBE, FAILED, STALE and a router, PERMANENT and learned outside,
/// NOARP and multicast. The index has a sign, and each bit of the state and the flags is kept.
#[test]
fn reads_headers(rt: HostRuntime) -> Result<(), Fail> {
    let lines = "
        02000000 03000000 1000 00 01 => NeighbourHeader { family: Inet, ifindex: 3, \
            state: NeighbourState(16), flags: NeighbourFlags(0), kind: Unicast }
        02000000 03000000 2000 00 00 => NeighbourHeader { family: Inet, ifindex: 3, \
            state: NeighbourState(32), flags: NeighbourFlags(0), kind: Unspec }
        0a000000 03000000 0400 80 01 => NeighbourHeader { family: Inet6, ifindex: 3, \
            state: NeighbourState(4), flags: NeighbourFlags(128), kind: Unicast }
        0a000000 03000000 8000 10 01 => NeighbourHeader { family: Inet6, ifindex: 3, \
            state: NeighbourState(128), flags: NeighbourFlags(16), kind: Unicast }
        0a000000 02000000 4000 00 05 => NeighbourHeader { family: Inet6, ifindex: 2, \
            state: NeighbourState(64), flags: NeighbourFlags(0), kind: Multicast }
        07000000 feffffff 0680 c2 c8 => NeighbourHeader { family: Bridge, ifindex: 4294967294, \
            state: NeighbourState(32774), flags: NeighbourFlags(194), kind: Other(200) }";
    headers(&rt, lines)
}

/// `ip neigh` said of the first of a dump: 192.0.2.3, lladdr 02:00:00:00:00:13, PROBE, static; of
/// the second: 192.0.2.4, FAILED; and of the third: ff02::16, NOARP. The padding of a header is
/// dropped. The address of a bridge stands as it is, whatever its length.
#[test]
fn reads_dumped_messages(rt: HostRuntime) -> Result<(), Fail> {
    let lines = "
        02000000 03000000 1000 00 01 08000100 c0000203 0a000200 020000000013 0000 \
            08000400 01000000 14000300 9a170000 2d000000 2a000000 01000000 05000c00 04000000 => \
            [Destination(Inet(192.0.2.3)), \
            LinkLocalAddress([2, 0, 0, 0, 0, 19]), Probes(1), CacheInfo(NeighbourCacheInfo { \
            confirmed: 6042, used: 45, updated: 42, refcnt: 1 }), Protocol(Static)]
        02000000 03000000 2000 00 00 08000100 c0000204 08000400 00000000 \
            14000300 9d170000 2d000000 2d000000 00000000 => \
            [Destination(Inet(192.0.2.4)), Probes(0), \
            CacheInfo(NeighbourCacheInfo { confirmed: 6045, used: 45, updated: 45, refcnt: 0 })]
        0a000000 02000000 4000 00 05 14000100 ff020000000000000000000000000016 \
            0a000200 333300000016 0000 08000400 00000000 => \
            [Destination(Inet6(ff02::16)), \
            LinkLocalAddress([51, 51, 0, 0, 0, 22]), Probes(0)]
        02112233 03000000 0200 00 00 -> 02000000 03000000 0200 00 00 => []
        07000000 03000000 8000 02 00 08000100 c0000203 => [Destination(Other([192, 0, 2, 3]))]
        07000000 03000000 8000 02 00 04000100 => [Destination(Other([]))]
        => 0 bytes, where a header of 12 is wanted
        02000000 03000000 0200 00 => 11 bytes, where a header of 12 is wanted";
    messages::<NeighbourMessage>(&rt, "", lines)
}

#[test]
fn reads_under_a_family(rt: HostRuntime) -> Result<(), Fail> {
    let line = "14000100 fc000000000000000000000000000001 => \
        a value of 16 bytes at attribute 1 of Neighbour";
    members::<NeighbourAttribute>(&rt, AddressFamily::Inet, line)?;
    let lines = "
        14000100 fc000000000000000000000000000001 => Destination(Inet6(fc00::1))
        08000100 c0000203 => a value of 4 bytes at attribute 1 of Neighbour";
    members::<NeighbourAttribute>(&rt, AddressFamily::Inet6, lines)
}

#[test]
fn addresses_alone(rt: HostRuntime) -> Result<(), Fail> {
    let alloc = rt.alloc();
    let ip = Ipv4Addr::new(192, 0, 2, 3);
    let address = NeighbourAddress::parse(alloc, AddressFamily::Inet, &[192, 0, 2, 3])?;
    holds(address == NeighbourAddress::from(ip))?;
    holds(address == NeighbourAddress::from(IpAddr::V4(ip)))?;
    holds(address.try_clone(alloc)? == address)?;
    writes(&rt, address, &["c0000203"])
}

#[test]
fn an_address_of_version_6(rt: HostRuntime) -> Result<(), Fail> {
    let address = NeighbourAddress::from(Ipv6Addr::from(FIRST));
    let text = "Inet6(fc00::1)";
    shows(&rt, address, text)
}

#[test]
fn an_address_of_no_place(rt: HostRuntime) -> Result<(), Fail> {
    let at = At {
        set: AttributeSet::Value,
        number: 0,
    };
    let found = NeighbourAddress::parse(rt.alloc(), AddressFamily::Inet6, &[192, 0, 2, 3]);
    same(found.err(), Some(DecodeError::ValueLength { at, got: 4 }))
}

#[test]
fn an_attribute_alone(rt: HostRuntime) -> Result<(), Fail> {
    let item = NlaBuffer::new_checked(&[8, 0, 1, 0, 0xc0, 0, 2, 3])?;
    let found = NeighbourAttribute::parse_with_param(rt.alloc(), &item, AddressFamily::Inet)?;
    shows(&rt, found, "Destination(Inet(192.0.2.3))")
}

/// One of each number besides those that stand in the messages above. Behind the sixteen bytes of a
/// cache info more may stand, which is dropped. Each number has its length, but for two.
#[test]
fn reads_values(rt: HostRuntime) -> Result<(), Fail> {
    let lines = "
        06000500 64000000 06000600 12b50000 08000700 2a000000 08000800 05000000 \
            08000900 07000000 08000a00 01000000 08000b00 2b000000 08000d00 09000000 \
            10000e80 05000100 01000000 04000200 08000f00 01000080 06001000 02000000 05001100 10000000 => \
            [Vlan(100), Port(4789), Vni(42), IfIndex(5), Controller(7), LinkNetNsId(1), SourceVni(43), \
            NhId(9), FdbExtAttributes([ActivityNotify(NeighbourFdbNotify(1)), DontRefresh]), \
            ExtFlags(NeighbourExtFlags(2147483649)), StateMask(NeighbourState(2)), FlagsMask(NeighbourFlags(16))]
        08000e00 04000100 => a value of 0 bytes at attribute 1 of NeighbourFdb
        18000300 01000000 02000000 03000000 04000000 05000000 -> \
            14000300 01000000 02000000 03000000 04000000 => \
            [CacheInfo(NeighbourCacheInfo { confirmed: 1, used: 2, updated: 3, refcnt: 4 })]
        04000200 04000e00 -> 04000200 04000e80 => [LinkLocalAddress([]), FdbExtAttributes([])]
        04000100 => a value of 0 bytes at attribute 1 of Neighbour
        04000400 => a value of 0 bytes at attribute 4 of Neighbour
        04000500 => a value of 0 bytes at attribute 5 of Neighbour
        04000600 => a value of 0 bytes at attribute 6 of Neighbour
        04000700 => a value of 0 bytes at attribute 7 of Neighbour
        04000800 => a value of 0 bytes at attribute 8 of Neighbour
        04000900 => a value of 0 bytes at attribute 9 of Neighbour
        04000a00 => a value of 0 bytes at attribute 10 of Neighbour
        04000b00 => a value of 0 bytes at attribute 11 of Neighbour
        04000c00 => a value of 0 bytes at attribute 12 of Neighbour
        04000d00 => a value of 0 bytes at attribute 13 of Neighbour
        04000f00 => a value of 0 bytes at attribute 15 of Neighbour
        07000600 12b50000 => a value of 3 bytes at attribute 6 of Neighbour
        10000300 01000000 02000000 03000000 => 12 bytes, where a header of 16 is wanted";
    messages::<NeighbourMessage>(&rt, HEADER, lines)
}

/// What `check` answers of a message with an address of so many zeros.
fn check_of_zeros(alloc: Global, count: usize) -> Result<Result<usize, EmitError>, AllocError> {
    let long = NeighbourAttribute::LinkLocalAddress(vec![in alloc; 0u8; count]?);
    let message = NeighbourMessage {
        attributes: vec![in alloc; long]?,
        ..NeighbourMessage::new(alloc)
    };
    Ok(message.check())
}

#[test]
fn an_address_that_is_too_long(rt: HostRuntime) -> Result<(), Fail> {
    let kind = 2;
    let len = 65_532;
    let fits = check_of::<NeighbourMessage>(&rt, &[HEADER, "ffff0200"], 65_531)?;
    same(fits, Ok(65_548))?;
    let unfit = check_of_zeros(rt.alloc(), len)?;
    same(unfit, Err(EmitError::TooLong { kind, len }))
}

#[test]
fn states(rt: HostRuntime) -> Result<(), Fail> {
    let mut state = NeighbourState::Reachable;
    state.insert(NeighbourState::Permanent);
    same(state.bits(), 0x82)?;
    holds(state.contains(NeighbourState::Reachable))?;
    holds(!state.contains(NeighbourState::Stale))?;
    same(NeighbourState::None, NeighbourState::default())?;
    let wanted = "[NeighbourState(4), NeighbourState(16), NeighbourState(32), NeighbourState(64), \
        NeighbourState(128), NeighbourState(130)]";
    let states = [
        NeighbourState::Stale,
        NeighbourState::Probe,
        NeighbourState::Failed,
        NeighbourState::Noarp,
        NeighbourState::Permanent,
        state,
    ];
    shows(&rt, states, wanted)
}

#[test]
fn flags(rt: HostRuntime) -> Result<(), Fail> {
    let managed = NeighbourExtFlags::Managed;
    same(managed.bits(), 1)?;
    shows(&rt, managed, "NeighbourExtFlags(1)")?;
    let wanted = "[NeighbourFlags(2), NeighbourFlags(4), NeighbourFlags(16), NeighbourFlags(128)]";
    let flags = [
        NeighbourFlags::Own,
        NeighbourFlags::Controller,
        NeighbourFlags::ExtLearned,
        NeighbourFlags::Router,
    ];
    shows(&rt, flags, wanted)
}

#[test]
fn a_new_header(rt: HostRuntime) -> Result<(), Fail> {
    let text = "NeighbourHeader { family: Unspec, ifindex: 0, state: NeighbourState(0), \
        flags: NeighbourFlags(0), kind: Unspec }";
    shows(&rt, NeighbourHeader::default(), text)
}

#[test]
fn what_is_remembered(rt: HostRuntime) -> Result<(), Fail> {
    let bytes = bytes_of(&rt, &["01000000 02000000 03000000 00010000"])?;
    let info = NeighbourCacheInfo::parse(bytes.as_slice())?;
    let wanted = NeighbourCacheInfo {
        confirmed: 1,
        used: 2,
        updated: 3,
        refcnt: 256,
    };
    same(info, wanted)?;
    writes(&rt, info, &["01000000 02000000 03000000 00010000"])
}

#[test]
fn by_its_name_and_its_types(rt: HostRuntime) -> Result<(), Fail> {
    same(
        MessageKind::named("neighbour"),
        Some(MessageKind::Neighbour),
    )?;
    let message = NeighbourMessage::new(rt.alloc());
    writes(
        &rt,
        RouteNetlinkMessage::DelNeighbour(message),
        &["00000000 00000000 00000000"],
    )
}
