//! Attributes by themselves, each read by the `parse` of its family, with memory enough.

use netlink_packet_route::AddressFamily;
use netlink_packet_route::address::AddressAttribute;
use netlink_packet_route::framing::{NlaBuffer, ParseableParametrized};
use netlink_packet_route::route::{
    RouteAttribute, RouteErspanOpt, RouteIoam6Tunnel, RouteIp6Tunnel, RouteIpTunnel,
    RouteLwEnCapType, RouteLwTunnelEncap, RouteLwTunnelOpt, RouteMetric, RouteMplsIpTunnel,
    RouteRplIpTunnel, RouteSeg6LocalTunnel, RouteType, RouteVxlanOpt, RouteXfrmTunnel,
};
use netlink_packet_route::rule::RuleAttribute;
use npr_testing::{is_alone, shows};
use std::test::Fail;

/// Number 1 with four bytes means something in each of these.
#[test]
fn of_four_bytes(rt: HostRuntime) -> Result<(), Fail> {
    let item = NlaBuffer::new_checked(&[8, 0, 1, 0, 7, 0, 0, 0])?;
    is_alone::<RouteMetric>(&rt, &item, "Lock(7)")?;
    is_alone::<RouteXfrmTunnel>(&rt, &item, "IfId(7)")?;
    is_alone::<RouteVxlanOpt>(&rt, &item, "Gbp(7)")?;
    is_alone::<RouteSeg6LocalTunnel>(&rt, &item, "Action(EndDt6)")
}

/// Number 4 with one byte means something in each of these.
#[test]
fn of_one_byte(rt: HostRuntime) -> Result<(), Fail> {
    let item = NlaBuffer::new_checked(&[5, 0, 4, 0, 64])?;
    is_alone::<RouteIpTunnel>(&rt, &item, "Ttl(64)")?;
    is_alone::<RouteIp6Tunnel>(&rt, &item, "Hoplimit(64)")?;
    is_alone::<RouteErspanOpt>(&rt, &item, "Hwid(64)")
}

/// Number 3 is a name in both of these.
#[test]
fn of_a_name(rt: HostRuntime) -> Result<(), Fail> {
    let item = NlaBuffer::new_checked(&[7, 0, 3, 0, 0x6c, 0x6f, 0])?;
    is_alone::<AddressAttribute>(&rt, &item, "Label(\"lo\")")?;
    is_alone::<RuleAttribute>(&rt, &item, "Iifname(\"lo\")")
}

#[test]
fn of_a_mode_and_of_nothing(rt: HostRuntime) -> Result<(), Fail> {
    let item = NlaBuffer::new_checked(&[5, 0, 1, 0, 3])?;
    is_alone::<RouteIoam6Tunnel>(&rt, &item, "Mode(Auto)")?;
    let item = NlaBuffer::new_checked(&[4, 0, 0, 0])?;
    is_alone::<RouteRplIpTunnel>(&rt, &item, "Unspecified")
}

#[test]
fn of_labels_and_options(rt: HostRuntime) -> Result<(), Fail> {
    let item = NlaBuffer::new_checked(&[8, 0, 1, 0, 0, 6, 0x41, 0xff])?;
    let text = "Destination([MplsLabel { label: 100, traffic_class: 0, bottom_of_stack: true, \
        ttl: 255 }])";
    is_alone::<RouteMplsIpTunnel>(&rt, &item, text)?;
    let item = NlaBuffer::new_checked(&[12, 0, 2, 0, 8, 0, 1, 0, 42, 0, 0, 0])?;
    is_alone::<RouteLwTunnelOpt>(&rt, &item, "Vxlan([Gbp(42)])")
}

#[test]
fn of_an_encapsulation(rt: HostRuntime) -> Result<(), Fail> {
    let item = NlaBuffer::new_checked(&[8, 0, 1, 0, 7, 0, 0, 0])?;
    let kind = RouteLwEnCapType::Xfrm;
    let member = RouteLwTunnelEncap::parse_with_param(rt.alloc(), &item, kind)?;
    shows(&rt, member, "Xfrm(IfId(7))")
}

#[test]
fn of_a_route(rt: HostRuntime) -> Result<(), Fail> {
    let item = NlaBuffer::new_checked(&[8, 0, 6, 0, 0, 4, 0, 0])?;
    let context = (
        AddressFamily::Inet,
        RouteType::Unicast,
        RouteLwEnCapType::None,
    );
    let attribute = RouteAttribute::parse_with_param(rt.alloc(), &item, context)?;
    shows(&rt, attribute, "Priority(1024)")
}
