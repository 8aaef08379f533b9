//! Addresses and gateways of routes, each by its family.

use netlink_packet_route::AddressFamily;
use netlink_packet_route::framing::{At, AttributeSet, DecodeError, Looks, Parseable};
use netlink_packet_route::net::{IpAddr, Ipv4Addr, Ipv6Addr};
use netlink_packet_route::route::{
    RouteAddress, RouteAttribute, RouteMessage, RouteNextHop, RoutePath, RouteType, RouteVia,
    RouteViaBuffer, read_route_list,
};
use npr_testing::{INET, LABEL, bytes_of, same, says, shows, writes};
use std::alloc::{AllocError, Global};
use std::test::Fail;

/// The destination of a route.
const PLACE: At = At {
    set: AttributeSet::Route,
    number: 1,
};

const FOUR: [u8; 4] = [0x0a, 0x00, 0x00, 0x01];

/// `2001:db8::1`.
const SIXTEEN: [u8; 16] = [0x20, 0x01, 0x0d, 0xb8, 0, 0, 0, 0, 0, 0, 0, 0, 0, 0, 0, 1];

/// The bytes are an address of the family that is printed so, and are what is written of it, or are
/// none, for the cause that is the text.
fn is_address(
    rt: &impl AllocGlobal,
    family: AddressFamily,
    digits: &str,
    text: &str,
) -> Result<(), Fail> {
    let bytes = bytes_of(rt, &[digits])?;
    match RouteAddress::read(rt.alloc(), family, bytes.as_slice(), PLACE) {
        Ok(found) => {
            same(found.len(), bytes.len())?;
            shows(rt, found.try_clone(rt.alloc())?, text)?;
            writes(rt, found, &[digits])
        }
        Err(fault) => says(rt, fault, text),
    }
}

/// Each line is bytes, and what they are as an address of the family.
fn addresses(rt: &impl AllocGlobal, family: AddressFamily, lines: &str) -> Result<(), Fail> {
    for line in lines.lines() {
        if let Some((digits, text)) = line.split_once("=>") {
            is_address(rt, family, digits, text.trim())?;
        }
    }
    Ok(())
}

#[test]
fn addresses_of_ip(rt: HostRuntime) -> Result<(), Fail> {
    let lines = "
        0a000001 => Inet(10.0.0.1)
        20010d => a value of 3 bytes at attribute 1 of Route
        20010db8000000000000000000000001 => a value of 16 bytes at attribute 1 of Route";
    addresses(&rt, AddressFamily::Inet, lines)?;
    let lines = "
        20010db8000000000000000000000001 => \
            Inet6(2001:db8::1)
        20010db8 => a value of 4 bytes at attribute 1 of Route
        20010db80000000000000000000000 => a value of 15 bytes at attribute 1 of Route";
    addresses(&rt, AddressFamily::Inet6, lines)
}

/// A family that is inet by its number alone counts as another one.
#[test]
fn addresses_of_other_families(rt: HostRuntime) -> Result<(), Fail> {
    let lines = "
        000641ff => Mpls(MplsLabel { label: 100, traffic_class: 0, bottom_of_stack: true, ttl: 255 })
        20010d => a value of 3 bytes at attribute 1 of Route
        20010db8 00000000 => a value of 8 bytes at attribute 1 of Route";
    addresses(&rt, AddressFamily::Mpls, lines)?;
    addresses(
        &rt,
        AddressFamily::Other(2),
        "0a000001 => Other([10, 0, 0, 1])",
    )?;
    addresses(&rt, AddressFamily::Bridge, "010203 => Other([1, 2, 3])")
}

#[test]
fn addresses_of_no_place(rt: HostRuntime) -> Result<(), Fail> {
    let found = RouteAddress::parse(rt.alloc(), AddressFamily::Inet, &FOUR)?;
    shows(&rt, found, "Inet(10.0.0.1)")?;
    let at = At::NO_PLACE;
    let found = RouteAddress::parse(rt.alloc(), AddressFamily::Inet, &[0; 3]).err();
    same(found, Some(DecodeError::ValueLength { at, got: 3 }))
}

#[test]
fn addresses_from_others(rt: HostRuntime) -> Result<(), Fail> {
    let inet = "Inet(10.0.0.1)";
    let inet6 = "Inet6(2001:db8::1)";
    shows(&rt, RouteAddress::from(Ipv4Addr::from(FOUR)), inet)?;
    shows(&rt, RouteAddress::from(Ipv6Addr::from(SIXTEEN)), inet6)?;
    shows(&rt, RouteAddress::from(IpAddr::from(FOUR)), inet)?;
    shows(&rt, RouteAddress::from(IpAddr::from(SIXTEEN)), inet6)?;
    let label = "Mpls(MplsLabel { label: 100, traffic_class: 0, bottom_of_stack: true, ttl: 255 })";
    shows(&rt, RouteAddress::from(LABEL), label)
}

#[test]
fn gateways_from_others(rt: HostRuntime) -> Result<(), Fail> {
    let inet = "Inet(10.0.0.1)";
    let inet6 = "Inet6(2001:db8::1)";
    shows(&rt, RouteVia::from(Ipv4Addr::from(FOUR)), inet)?;
    shows(&rt, RouteVia::from(Ipv6Addr::from(SIXTEEN)), inet6)?;
    shows(&rt, RouteVia::from(IpAddr::from(FOUR)), inet)?;
    shows(&rt, RouteVia::from(IpAddr::from(SIXTEEN)), inet6)
}

/// The bytes are a gateway that is printed so, and are what is written of it, or are none, for the
/// cause that is the text.
fn is_gateway(rt: &impl AllocGlobal, digits: &str, text: &str) -> Result<(), Fail> {
    let bytes = bytes_of(rt, &[digits])?;
    match RouteVia::read(rt.alloc(), bytes.as_slice(), PLACE) {
        Ok(found) => {
            same(found.len(), bytes.len())?;
            shows(rt, found.try_clone(rt.alloc())?, text)?;
            writes(rt, found, &[digits])
        }
        Err(fault) => says(rt, fault, text),
    }
}

#[test]
fn gateways(rt: HostRuntime) -> Result<(), Fail> {
    let lines = "
        0200 0a000001 => Inet(10.0.0.1)
        0a00 20010db8000000000000000000000001 => \
            Inet6(2001:db8::1)
        1100 02005e100001 => Packet([2, 0, 94, 16, 0, 1])
        1c00 000641ff => Other((Mpls, [0, 6, 65, 255]))
        c800 => Other((Other(200), []))
        02 => 1 bytes, where a header of 2 is wanted
        0201 0a000001 => a gateway of address family 258
        0200 0a0000 => a value of 3 bytes at attribute 1 of Route
        0a00 0a000001 => a value of 4 bytes at attribute 1 of Route";
    for line in lines.lines() {
        if let Some((digits, text)) = line.split_once("=>") {
            is_gateway(&rt, digits, text.trim())?;
        }
    }
    Ok(())
}

#[test]
fn gateways_of_no_place(rt: HostRuntime) -> Result<(), Fail> {
    let found = RouteVia::parse(rt.alloc(), &[2, 0, 10, 0, 0, 1])?;
    shows(&rt, found, "Inet(10.0.0.1)")?;
    let at = At::NO_PLACE;
    let alone = RouteVia::parse(rt.alloc(), &[2, 0]).err();
    same(alone, Some(DecodeError::ValueLength { at, got: 0 }))
}

#[test]
fn family_of_a_gateway() -> Result<(), Fail> {
    let address_family = 258;
    let family = RouteViaBuffer { address_family };
    same(RouteViaBuffer::parse(&[0x02, 0x01, 0xee])?, family)?;
    same(family.to_bytes(), [0x02, 0x01])?;
    let short = DecodeError::HeaderTooShort { got: 1, want: 2 };
    same(RouteViaBuffer::parse(&[0x02]).err(), Some(short))
}

/// A gateway of a next hop is none of the route.
#[test]
fn gateways_of_routes(rt: HostRuntime) -> Result<(), Fail> {
    let lines = "
        02000000fe03000100000000 08000400 02000000 08000500 0a000001 08000500 0a000002 => \
            Some(10.0.0.1)
        0a000000fe03000100000000 14000500 20010db8000000000000000000000001 => \
            Some(2001:db8::1)
        02000000fe03000100000000 08000100 0a000001 08000700 0a000001 0a001200 02000a00 00010000 => None
        02000000fe03000100000000 14000900 10000000 02000000 08000500 0a000001 => None";
    for line in lines.lines() {
        if let Some((digits, text)) = line.split_once("=>") {
            let bytes = bytes_of(&rt, &[digits])?;
            let message = RouteMessage::parse(rt.alloc(), bytes.as_slice())?;
            shows(&rt, message.gateway(), text.trim())?;
        }
    }
    Ok(())
}

#[test]
fn gateways_of_next_hops(rt: HostRuntime) -> Result<(), Fail> {
    let bytes = bytes_of(&rt, &["08000500 0a000001"])?;
    let mut hop = RouteNextHop::new(rt.alloc());
    same(hop.gateway(), None)?;
    let under = (AddressFamily::Inet, RouteType::Unicast);
    hop.attributes = read_route_list(rt.alloc(), bytes.as_slice(), under, &mut Looks::new())?;
    same(hop.gateway(), Some(IpAddr::from(FOUR)))
}

/// What is asked of a route is the first of its kind.
#[test]
fn what_is_asked_of_routes(rt: HostRuntime) -> Result<(), Fail> {
    let texts = [
        INET,
        "08000100 0a000000 08000400 07000000 14000900 10000000 02000000 08000500 0a000001",
        "08000f00 e8030000",
    ];
    let bytes = bytes_of(&rt, &texts)?;
    let message = RouteMessage::parse(rt.alloc(), bytes.as_slice())?;
    let destination = "Some(10.0.0.0)";
    shows(&rt, message.destination(), destination)?;
    same(message.output_interface(), Some(7))?;
    same(message.table(), Some(1000))?;
    let hops = "Some([RouteNextHop { flags: RouteNextHopFlags(0), hops: 0, interface_index: 2, \
        attributes: [Gateway(Inet(10.0.0.1))] }])";
    shows(&rt, message.next_hops(), hops)
}

#[test]
fn a_next_hop_through_a_gateway(rt: HostRuntime) -> Result<(), Fail> {
    let hop = RouteNextHop::through(rt.alloc(), 2, IpAddr::from(FOUR))?;
    same(hop.gateway(), Some(IpAddr::from(FOUR)))?;
    writes(&rt, hop, &["10000000 02000000 08000500 0a000001"])
}

/// An attribute by each way of building one.
fn built(alloc: Global, address: IpAddr) -> Result<Vec<RouteAttribute>, AllocError> {
    let hops = vec![in alloc; RouteNextHop::through(alloc, 2, address)?]?;
    Ok(vec![in alloc;
        RouteAttribute::to_destination(address),
        RouteAttribute::to_gateway(address),
        RouteAttribute::in_table(1000),
        RouteAttribute::out_by(7),
        RouteAttribute::by_next_hops(hops),
    ]?)
}

/// What is built has the bytes of its kind.
#[test]
fn what_is_built_for_routes(rt: HostRuntime) -> Result<(), Fail> {
    let message = RouteMessage {
        attributes: built(rt.alloc(), IpAddr::from(FOUR))?,
        ..RouteMessage::new(rt.alloc())
    };
    let texts = [
        "00000000 00000000 00000000",
        "08000100 0a000001 08000500 0a000001 08000f00 e8030000 08000400 07000000",
        "14000900 10000000 02000000 08000500 0a000001",
    ];
    writes(&rt, message, &texts)
}
