//! What `{:?}` prints of one value of each type, as a derive prints it.

use bitflags::Flags;
use netlink_packet_route::address::{
    AddressAttribute, AddressFlags, AddressHeader, AddressHeaderFlags, AddressProtocol,
    AddressScope, CacheInfo,
};
use netlink_packet_route::framing::Looks;
use netlink_packet_route::nsid::NsidMessage;
use netlink_packet_route::route::{
    Ioam6Mode, Ioam6TraceHdr, RouteAddress, RouteAttribute, RouteErspanOpt, RouteFlags,
    RouteGeneveOpt, RouteHeader, RouteIoam6Tunnel, RouteIp6Tunnel, RouteIp6TunnelFlags,
    RouteIpTunnel, RouteIpTunnelFlags, RouteLwEnCapType, RouteLwTunnelEncap, RouteLwTunnelOpt,
    RouteMetric, RouteMplsIpTunnel, RouteMplsTtlPropagation, RouteNextHop, RouteNextHopFlags,
    RoutePreference, RouteProtocol, RouteRealm, RouteRplIpTunnel, RouteScope, RouteSeg6IpTunnel,
    RouteSeg6LocalTunnel, RouteType, RouteVia, RouteVxlanOpt, RouteXfrmTunnel, RplSrh, Seg6Header,
    Seg6LocalAction, Seg6LocalSrh, Seg6Mode,
};
use netlink_packet_route::rule::{
    RuleAction, RuleAttribute, RuleFlags, RuleHeader, RuleMessage, RulePortRange, RuleUidRange,
};
use netlink_packet_route::{AddressFamily, IpProtocol, MessageKind};
use npr_testing::{LABEL, shows};
use std::test::Fail;

#[test]
fn enumerations_of_addresses_and_rules(rt: HostRuntime) -> Result<(), Fail> {
    let values = (
        MessageKind::Rule,
        AddressFamily::Inet6,
        AddressScope::Other(7),
        AddressProtocol::RouterAnnouncement,
        RuleAction::ToTable,
        IpProtocol::Other(-1),
        MessageKind::Neighbour,
    );
    let text = "(Rule, Inet6, Other(7), RouterAnnouncement, ToTable, Other(-1), Neighbour)";
    shows(&rt, values, text)
}

#[test]
fn enumerations_of_routes(rt: HostRuntime) -> Result<(), Fail> {
    let values = (
        RouteProtocol::Dhcp,
        RouteScope::NoWhere,
        RouteType::BlackHole,
        RoutePreference::Low,
        RouteMplsTtlPropagation::Enabled,
        RouteLwEnCapType::Seg6Local,
        Seg6Mode::L2Encap,
        Seg6LocalAction::EndDx4,
        Ioam6Mode::Auto,
    );
    let text = "(Dhcp, NoWhere, BlackHole, Low, Enabled, Seg6Local, L2Encap, EndDx4, Auto)";
    shows(&rt, values, text)
}

/// The number of a set; upstream prints the names of its flags.
#[test]
fn flags(rt: HostRuntime) -> Result<(), Fail> {
    let flags = (
        AddressFlags::Permanent,
        AddressHeaderFlags::Permanent,
        RuleFlags::Invert,
        RouteFlags::Onlink,
        RouteNextHopFlags::Linkdown,
        RouteIpTunnelFlags::from_bits_retain(12),
        RouteIp6TunnelFlags::from_bits_retain(12),
    );
    let text = "(AddressFlags(128), AddressHeaderFlags(128), RuleFlags(2), RouteFlags(4), \
        RouteNextHopFlags(16), RouteIpTunnelFlags(12), RouteIp6TunnelFlags(12))";
    shows(&rt, flags, text)
}

#[test]
fn headers(rt: HostRuntime) -> Result<(), Fail> {
    shows(
        &rt,
        AddressHeader::default(),
        "AddressHeader { family: Unspec, prefix_len: 0, flags: AddressHeaderFlags(0), scope: Universe, index: 0 }",
    )?;
    shows(
        &rt,
        RuleHeader::default(),
        "RuleHeader { family: Unspec, dst_len: 0, src_len: 0, tos: 0, table: 0, action: Unspec, flags: RuleFlags(0) }",
    )?;
    shows(
        &rt,
        RouteHeader::default(),
        "RouteHeader { address_family: Unspec, destination_prefix_length: 0, source_prefix_length: 0, tos: 0, table: 0, protocol: Unspec, scope: Universe, kind: Unspec, flags: RouteFlags(0) }",
    )
}

#[test]
fn structures(rt: HostRuntime) -> Result<(), Fail> {
    shows(&rt, Looks::new(), "Looks { successful: 0, failed: 0 }")?;
    let values = (
        CacheInfo::default(),
        RulePortRange { start: 1, end: 2 },
        RuleUidRange { start: 1, end: 2 },
        LABEL,
        RouteRealm {
            source: 1,
            destination: 2,
        },
        Ioam6TraceHdr::default(),
    );
    let text = "(CacheInfo { ifa_preferred: 0, ifa_valid: 0, cstamp: 0, tstamp: 0 }, \
        RulePortRange { start: 1, end: 2 }, RuleUidRange { start: 1, end: 2 }, \
        MplsLabel { label: 100, traffic_class: 0, bottom_of_stack: true, ttl: 255 }, \
        RouteRealm { source: 1, destination: 2 }, Ioam6TraceHdr { namespace_id: 0, nodelen: 0, \
        overflow: false, remlen: 0, trace_type: 0 })";
    shows(&rt, values, text)
}

#[test]
fn attributes(rt: HostRuntime) -> Result<(), Fail> {
    let alloc = rt.alloc();
    let label = AddressAttribute::Label(String::from_str(alloc, "lo")?);
    shows(&rt, label, "Label(\"lo\")")?;
    shows(&rt, RuleAttribute::L3MDev(true), "L3MDev(true)")?;
    let metrics = vec![in alloc; RouteMetric::Mtu(1500)]?;
    let metrics = RouteAttribute::Metrics(metrics);
    shows(&rt, metrics, "Metrics([Mtu(1500)])")
}

#[test]
fn values_of_bytes(rt: HostRuntime) -> Result<(), Fail> {
    let via = RouteVia::Packet([1, 2].to_vec(rt.alloc())?);
    shows(&rt, via, "Packet([1, 2])")?;
    let address = RouteAddress::Other([1, 2].to_vec(rt.alloc())?);
    shows(&rt, address, "Other([1, 2])")
}

#[test]
fn tunnels(rt: HostRuntime) -> Result<(), Fail> {
    let labels = RouteMplsIpTunnel::Ttl(64);
    shows(&rt, RouteLwTunnelEncap::Mpls(labels), "Mpls(Ttl(64))")?;
    let options = vec![in rt.alloc(); RouteVxlanOpt::Gbp(42)]?;
    let options = RouteLwTunnelOpt::Vxlan(options);
    shows(&rt, options, "Vxlan([Gbp(42)])")
}

#[test]
fn members_of_tunnels(rt: HostRuntime) -> Result<(), Fail> {
    let members = (
        RouteIpTunnel::Tos(4),
        RouteIp6Tunnel::Hoplimit(64),
        RouteXfrmTunnel::IfId(7),
        RouteErspanOpt::Ver(1),
        RouteSeg6LocalTunnel::Table(254),
        RouteRplIpTunnel::Unspecified,
        RouteIoam6Tunnel::FreqK(1),
    );
    let text = "(Tos(4), Hoplimit(64), IfId(7), Ver(1), Table(254), Unspecified, FreqK(1))";
    shows(&rt, members, text)
}

#[test]
fn new_values(rt: HostRuntime) -> Result<(), Fail> {
    let alloc = rt.alloc();
    let values = (
        RouteNextHop::new(alloc),
        RouteGeneveOpt::new(alloc),
        RouteSeg6IpTunnel::Seg6(Seg6Header::new(alloc)),
        Seg6LocalSrh::new(alloc),
        RplSrh::new(alloc),
    );
    let text = "(RouteNextHop { flags: RouteNextHopFlags(0), hops: 0, interface_index: 0, \
        attributes: [] }, RouteGeneveOpt { class: 0, typ: 0, opt_data: [] }, \
        Seg6(Seg6Header { mode: Inline, segments: [], hmac: None }), \
        Seg6LocalSrh { next_header: 0, routing_type: 0, segments_left: 0, first_segment: 0, \
        flags: 0, tag: 0, segments: [] }, RplSrh { next_header: 0, routing_type: 0, \
        segments_left: 0, cmpri: 0, cmpre: 0, pad: 0, segments: [] })";
    shows(&rt, values, text)
}

/// A message begins with its own name, as upstream's, whose messages are structures of their own.
#[test]
fn messages(rt: HostRuntime) -> Result<(), Fail> {
    let messages = (RuleMessage::new(rt.alloc()), NsidMessage::new(rt.alloc()));
    let text =
        "(RuleMessage { header: RuleHeader { family: Unspec, dst_len: 0, src_len: 0, tos: 0, table: 0, \
        action: Unspec, flags: RuleFlags(0) }, attributes: [] }, NsidMessage { header: NsidHeader { family: \
        Unspec }, attributes: [] })";
    shows(&rt, messages, text)
}
