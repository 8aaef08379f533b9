//! The texts that values are printed as: enumerations, flags and addresses.

use bitflags::Flags;
use netlink_packet_route::AddressFamily;
use netlink_packet_route::address::{AddressProtocol, AddressScope};
use netlink_packet_route::net::{IpAddr, Ipv4Addr, Ipv6Addr};
use netlink_packet_route::route::{
    Ioam6Mode, RouteLwEnCapType, RouteNextHopFlags, RouteProtocol, RouteScope, Seg6LocalAction,
};
use npr_testing::{bytes_of, says};
use std::fmt;
use std::test::Fail;

/// What each number stands for is printed as the text beside it.
fn says_each<N: From<u8>, T: From<N> + fmt::Display + Drop>(
    rt: &impl AllocGlobal,
    rows: &str,
) -> Result<(), Fail> {
    for row in rows.split(',') {
        if let Some((number, text)) = row.trim().split_once(' ') {
            let number: u8 = number.parse()?;
            says(rt, T::from(N::from(number)), text)?;
        }
    }
    Ok(())
}

#[test]
fn families(rt: HostRuntime) -> Result<(), Fail> {
    let rows = "
        0 unspec, 1 unix, 2 inet, 3 ax25, 4 ipx, 5 appletalk, 6 netrom, 7 bridge, 8 atmpvc,
        9 x25, 10 inet6, 11 rose, 12 decnet, 13 netbeui, 14 security, 15 key, 16 netlink,
        17 packet, 18 ash, 19 econet, 20 atmsvc, 21 rds, 22 sna, 23 irda, 24 pppox, 25 wanpipe,
        26 llc, 27 ib, 28 mpls, 29 can, 30 tipc, 31 bluetooth, 32 iucv, 33 rxrpc, 34 isdn,
        35 phonet, 36 ieee802154, 37 caif, 38 alg, 39 nfc, 40 vsock, 41 kcm, 42 qipcrtr, 43 smc,
        44 xdp, 45 mctp, 255 255";
    says_each::<u8, AddressFamily>(&rt, rows)?;
    says(&rt, AddressFamily::Local, "local")?;
    says(&rt, AddressFamily::Route, "route")
}

#[test]
fn scopes(rt: HostRuntime) -> Result<(), Fail> {
    let rows = "0 universe, 200 site, 253 link, 254 host, 255 nowhere, 7 7";
    says_each::<u8, AddressScope>(&rt, rows)?;
    let rows = "0 universe, 200 site, 253 link, 254 host, 255 no_where, 7 other(7)";
    says_each::<u8, RouteScope>(&rt, rows)
}

#[test]
fn protocols(rt: HostRuntime) -> Result<(), Fail> {
    let rows = "1 kernel_lo, 2 kernel_ra, 3 kernel_ll, 0 0";
    says_each::<u8, AddressProtocol>(&rt, rows)?;
    let rows = "
        0 unspec, 1 icmp_redirect, 2 kernel, 3 boot, 4 static, 8 gated, 9 ra, 10 merit_mrt,
        11 zebra, 12 bird, 13 decnet_routing_daemon, 14 xorp, 15 netsukuku, 16 Dhcp,
        17 multicast_daemon, 18 keepalived_daemon, 42 babel, 186 bgp, 187 isis, 188 ospf,
        189 rip, 192 eigrp, 255 other(255)";
    says_each::<u8, RouteProtocol>(&rt, rows)
}

#[test]
fn modes_and_types_of_encapsulations(rt: HostRuntime) -> Result<(), Fail> {
    let rows = "1 inline, 2 encap, 3 auto, 0 other(0)";
    says_each::<u8, Ioam6Mode>(&rt, rows)?;
    let rows = "
        0 none, 1 mpls, 2 ip, 3 ila, 4 ip6, 5 seg6, 6 bpf, 7 seg6local, 8 rpl, 9 ioam6, 10 xfrm,
        11 other(11)";
    says_each::<u16, RouteLwEnCapType>(&rt, rows)
}

#[test]
fn actions(rt: HostRuntime) -> Result<(), Fail> {
    let rows = "
        1 End, 2 End.X, 3 End.T, 4 End.DX2, 5 End.DX6, 6 End.DX4, 7 End.DT6, 8 End.DT4,
        9 End.B6, 10 End.B6.Encaps, 11 End.BM, 12 End.S, 13 End.AS, 14 End.AM, 15 End.BPF,
        16 End.DT46, 0 other(0), 17 other(17)";
    says_each::<u32, Seg6LocalAction>(&rt, rows)?;
    says(&rt, Seg6LocalAction::Unspec, "unspec")
}

#[test]
fn flags_of_next_hops(rt: HostRuntime) -> Result<(), Fail> {
    let all = RouteNextHopFlags::from_bits_retain(0xff);
    let text = "dead onlink pervasive offload linkdown unresolved trap";
    says(&rt, all, text)?;
    says(
        &rt,
        RouteNextHopFlags::from_bits_retain(7),
        "dead onlink pervasive",
    )?;
    says(&rt, RouteNextHopFlags::Linkdown, "linkdown")?;
    says(&rt, RouteNextHopFlags::from_bits_retain(0x80), "")
}

/// Each line is an address of version 6, and what it is printed as, by itself and as one of either.
fn says_addresses(rt: &impl AllocGlobal, lines: &str) -> Result<(), Fail> {
    for line in lines.lines() {
        if let Some((digits, text)) = line.split_once("=>") {
            let octets = <[u8; 16]>::try_from(bytes_of(rt, &[digits])?.as_slice())?;
            says(rt, Ipv6Addr::from(octets), text.trim())?;
            says(rt, IpAddr::from(octets), text.trim())?;
        }
    }
    Ok(())
}

#[test]
fn addresses_of_version_6(rt: HostRuntime) -> Result<(), Fail> {
    let lines = "
        0000 0000 0000 0000 0000 0000 0000 0000 => ::
        0001 0000 0000 0002 0003 0000 0000 0004 => 1::2:3:0:0:4
        0001 0000 0002 0003 0004 0005 0006 0007 => 1:0:2:3:4:5:6:7
        0000 0000 0000 0000 0000 ffff 0a00 0001 => ::ffff:10.0.0.1";
    says_addresses(&rt, lines)
}

#[test]
fn addresses_of_version_4(rt: HostRuntime) -> Result<(), Fail> {
    says(&rt, Ipv4Addr::new(192, 0, 2, 1), "192.0.2.1")?;
    says(&rt, IpAddr::from(Ipv4Addr::new(10, 0, 0, 1)), "10.0.0.1")
}
