//! Members of encapsulations, as `ip` writes them, and damaged ones.

use bitflags::Flags;
use netlink_packet_route::framing::{EmitError, Emitable};
use netlink_packet_route::route::{
    RouteGeneveOpt, RouteIp6TunnelFlags, RouteIpTunnel, RouteLwEnCapType, RouteLwTunnelEncap,
    RouteLwTunnelOpt,
};
use npr_testing::{members, same, writes};
use std::alloc::{AllocError, Global};
use std::test::Fail;

#[test]
fn types_and_numbers(rt: HostRuntime) -> Result<(), Fail> {
    same(RouteLwEnCapType::from(1), RouteLwEnCapType::Mpls)?;
    same(RouteLwEnCapType::default(), RouteLwEnCapType::None)?;
    same(u16::from(RouteLwEnCapType::from(0x1234)), 0x1234)?;
    writes(&rt, RouteLwEnCapType::Other(0x1234), &["3412"])
}

/// Without a type a member is kept as it stands.
#[test]
fn labels(rt: HostRuntime) -> Result<(), Fail> {
    let line = "08000100 000641ff => Mpls(Destination([MplsLabel { label: 100, traffic_class: 0, \
        bottom_of_stack: true, ttl: 255 }]))";
    members::<RouteLwTunnelEncap>(&rt, RouteLwEnCapType::Mpls, line)?;
    let line = "08000100 000641ff => Other(DefaultNla { kind: 1, value: [0, 6, 65, 255] })";
    members::<RouteLwTunnelEncap>(&rt, RouteLwEnCapType::None, line)
}

/// The value of number 0 is dropped.
#[test]
fn an_interface_of_ipsec(rt: HostRuntime) -> Result<(), Fail> {
    let lines = "
        08000100 07000000 => Xfrm(IfId(7))
        06000000 0102 -> 04000000 => Xfrm(Unspecified)";
    members::<RouteLwTunnelEncap>(&rt, RouteLwEnCapType::Xfrm, lines)
}

/// A class of Geneve alone is an option of type 0 with no data, and is written with both.
#[test]
fn tunnels_of_ip(rt: HostRuntime) -> Result<(), Fail> {
    let lines = "
        0c000100 00000000 00000100 => Ip(Id(256))
        10000880 0c000280 08000100 2a000000 => Ip(Opts([Vxlan([Gbp(42)])]))
        10000880 0c000180 06000100 01020000 -> \
            1c000880 18000180 06000100 01020000 05000200 00000000 04000300 => \
            Ip(Opts([Geneve([RouteGeneveOpt { class: 258, typ: 0, opt_data: [] }])]))
        0c000880 08000180 04000400 => Geneve option attribute 4 is unknown
        0c000800 08000300 03000100 => an attribute of length 3 with 4 bytes left";
    members::<RouteLwTunnelEncap>(&rt, RouteLwEnCapType::Ip, lines)
}

/// A type of Geneve before a class is refused, whatever its length.
#[test]
fn tunnels_of_ip6(rt: HostRuntime) -> Result<(), Fail> {
    let lines = "
        14000200 fc000000000000000000000000000001 => Ip6(Destination(fc00::1))
        06000600 000c0000 => Ip6(Flags(RouteIp6TunnelFlags(12)))
        10000880 0c000180 05000200 07000000 => Geneve option attribute 2 before a class";
    members::<RouteLwTunnelEncap>(&rt, RouteLwEnCapType::Ip6, lines)
}

/// Of Geneve the last type and the last data of an option count, and padding at the end may be missing.
#[test]
fn options(rt: HostRuntime) -> Result<(), Fail> {
    let lines = "
        2a000180 06000100 01020000 05000200 01000000 05000200 02000000 06000300 abcd0000 06000100 0001 -> \
            30000180 06000100 01020000 05000200 02000000 06000300 abcd0000 \
            06000100 00010000 05000200 00000000 04000300 => \
            Geneve([RouteGeneveOpt { class: 258, typ: 2, opt_data: [171, 205] }, \
            RouteGeneveOpt { class: 1, typ: 0, opt_data: [] }])
        14000380 05000100 01000000 08000200 00000005 => Erspan([Ver(1), Index(5)])";
    members::<RouteLwTunnelOpt>(&rt, (), lines)
}

#[test]
fn a_copy_of_geneve(rt: HostRuntime) -> Result<(), Fail> {
    let mut option = RouteGeneveOpt::new(rt.alloc());
    option.class = 258;
    option.typ = 2;
    same(option.try_clone(rt.alloc())?, option)
}

#[test]
fn flags_of_ip6() -> Result<(), Fail> {
    let flags = RouteIp6TunnelFlags::Key.union(RouteIp6TunnelFlags::Sequence);
    same(flags, RouteIp6TunnelFlags::from_bits_retain(12))
}

/// An option with data of 65,532 bytes.
fn long_option(alloc: Global) -> Result<RouteLwTunnelOpt, AllocError> {
    let option = RouteGeneveOpt {
        class: 1,
        typ: 1,
        opt_data: vec![in alloc; 0u8; 65_532]?,
    };
    Ok(RouteLwTunnelOpt::Geneve(vec![in alloc; option]?))
}

#[test]
fn says_what_does_not_fit(rt: HostRuntime) -> Result<(), Fail> {
    let kind = 3;
    let len = 65_532;
    let option = long_option(rt.alloc())?;
    same(option.check(), Err(EmitError::TooLong { kind, len }))?;
    let options = RouteIpTunnel::Opts(vec![in rt.alloc(); option]?);
    same(options.check(), Err(EmitError::TooLong { kind, len }))
}
