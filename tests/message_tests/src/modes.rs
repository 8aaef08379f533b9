//! Modes of SEG6 headers: their numbers, and values of a table in which fewer had a name.

use netlink_packet_route::route::{
    RouteAttribute, RouteLwEnCapType, RouteLwTunnelEncap, RouteMessage, RouteNextHop,
    RouteSeg6IpTunnel, Seg6Header, Seg6Mode, normalize,
};
use npr_testing::{INET, messages, same, shows};
use std::alloc::{AllocError, Global};
use std::test::Fail;

/// A member with a header of this mode, without segments and key.
fn member(alloc: Global, mode: Seg6Mode) -> RouteLwTunnelEncap {
    let header = Seg6Header {
        mode,
        ..Seg6Header::new(alloc)
    };
    RouteLwTunnelEncap::Seg6(RouteSeg6IpTunnel::Seg6(header))
}

#[test]
fn reads_a_mode(rt: HostRuntime) -> Result<(), Fail> {
    let lines = "
        14001680 10000100 02000000 00000400 00000000 06001500 05000000 => \
            [Encap([Seg6(Seg6(Seg6Header { mode: L2Encap, segments: [], hmac: None }))]), EncapType(Seg6)]
        34000900 30000000 01000000 28000900 24000000 02000000 \
            14001680 10000100 02000000 00000400 00000000 06001500 05000000 => \
            [MultiPath([RouteNextHop { flags: RouteNextHopFlags(0), hops: 0, interface_index: 1, \
            attributes: [MultiPath([RouteNextHop { flags: RouteNextHopFlags(0), hops: 0, \
            interface_index: 2, attributes: [Encap([Seg6(Seg6(Seg6Header { mode: L2Encap, segments: [], \
            hmac: None }))]), EncapType(Seg6)] }])] }])]";
    messages::<RouteMessage>(&rt, INET, lines)
}

const OF_SEG6: RouteAttribute = RouteAttribute::EncapType(RouteLwEnCapType::Seg6);

/// What a route with these attributes has once it is brought up is printed so.
fn normalizes(
    rt: &impl AllocGlobal,
    attributes: Vec<RouteAttribute>,
    text: &str,
) -> Result<(), Fail> {
    let mut message = RouteMessage {
        attributes,
        ..RouteMessage::new(rt.alloc())
    };
    normalize(&mut message);
    shows(rt, message.attributes, text)
}

/// An encapsulation with headers of these modes, and its type.
fn two_headers(
    alloc: Global,
    first: Seg6Mode,
    second: Seg6Mode,
) -> Result<Vec<RouteAttribute>, AllocError> {
    let members = vec![in alloc; member(alloc, first), member(alloc, second)]?;
    Ok(vec![in alloc; RouteAttribute::Encap(members), OF_SEG6]?)
}

#[test]
fn normalizes_each_header(rt: HostRuntime) -> Result<(), Fail> {
    let old = two_headers(rt.alloc(), Seg6Mode::Other(2), Seg6Mode::Other(1))?;
    let text = "[Encap([Seg6(Seg6(Seg6Header { mode: L2Encap, segments: [], hmac: None })), \
        Seg6(Seg6(Seg6Header { mode: Encap, segments: [], hmac: None }))]), EncapType(Seg6)]";
    normalizes(&rt, old, text)?;
    let old = two_headers(rt.alloc(), Seg6Mode::Other(5), Seg6Mode::Other(3))?;
    let text = "[Encap([Seg6(Seg6(Seg6Header { mode: Other(5), segments: [], hmac: None })), \
        Seg6(Seg6(Seg6Header { mode: EncapRed, segments: [], hmac: None }))]), EncapType(Seg6)]";
    normalizes(&rt, old, text)
}

/// A list of one next hop, by this interface, with these attributes.
fn hop(
    alloc: Global,
    interface_index: u32,
    attributes: Vec<RouteAttribute>,
) -> Result<Vec<RouteAttribute>, AllocError> {
    let hop = RouteNextHop {
        interface_index,
        attributes,
        ..RouteNextHop::new(alloc)
    };
    let hops = vec![in alloc; hop]?;
    Ok(vec![in alloc; RouteAttribute::MultiPath(hops)]?)
}

#[test]
fn normalizes_inside_next_hops(rt: HostRuntime) -> Result<(), Fail> {
    let alloc = rt.alloc();
    let members = vec![in alloc; member(alloc, Seg6Mode::Other(2))]?;
    let inside = vec![in alloc; RouteAttribute::Encap(members), OF_SEG6]?;
    let old = hop(alloc, 1, hop(alloc, 2, inside)?)?;
    let text =
        "[MultiPath([RouteNextHop { flags: RouteNextHopFlags(0), hops: 0, interface_index: 1, \
        attributes: [MultiPath([RouteNextHop { flags: RouteNextHopFlags(0), hops: 0, \
        interface_index: 2, attributes: [Encap([Seg6(Seg6(Seg6Header { mode: L2Encap, segments: [], \
        hmac: None }))]), EncapType(Seg6)] }])] }])]";
    normalizes(&rt, old, text)
}

#[test]
fn normalizes_a_header_alone(rt: HostRuntime) -> Result<(), Fail> {
    let mut alone = Seg6Header::new(rt.alloc());
    alone.mode = Seg6Mode::Other(4);
    alone.normalize();
    same(alone.mode, Seg6Mode::L2EncapRed)?;
    let mut member = member(rt.alloc(), Seg6Mode::Other(0));
    member.normalize();
    let text = "Seg6(Seg6(Seg6Header { mode: Inline, segments: [], hmac: None }))";
    shows(&rt, member, text)
}
