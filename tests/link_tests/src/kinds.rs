//! The data of tunnels, of bonds and of other kinds of links, as `ip` asks for them and as a kernel
//! answers.

use netlink_packet_route::link::{
    BondArpAllTargets, BondArpValidate, BondFailOverMac, BondMode, BondPrimaryReselect,
    BondXmitHashPolicy, GreEncapType, LinkMessage, TunnelEncapType,
};
use npr_testing::{messages, says};
use std::test::Fail;

/// A header of zeros.
const ZEROS: &str = "00000000 00000000 00000000 00000000";

/// Addresses in a bond are told by their order: their numbers and flags are not looked at.
#[test]
fn reads_bonds(rt: HostRuntime) -> Result<(), Fail> {
    let lines = "
        0a000300 626f6e64 31000000 90001200 08000100 626f6e64 84000200 05000100 01000000 08000700 fa000000 \
            14000800 08000000 0a000001 08000100 0a000002 08000900 03000000 08000a00 00000000 08000b00 04000000 \
            05000c00 01000000 05000d00 01000000 05001e00 03000000 2c001f00 14000000 20010db8 00000000 00000000 \
            00000001 14000100 20010db8 00000000 00000000 00000002 -> \
            0a000300 626f6e64 31000000 94001200 09000100 626f6e64 00000000 84000200 05000100 01000000 08000700 \
            fa000000 14000800 08000000 0a000001 08000100 0a000002 08000900 03000000 08000a00 00000000 08000b00 \
            04000000 05000c00 01000000 05000d00 01000000 05001e00 03000000 2c001f80 14000000 20010db8 00000000 \
            00000000 00000001 14000100 20010db8 00000000 00000000 00000002 => \
            [IfName(\"bond1\"), LinkInfo([Kind(Bond), Data(Bond([Mode(ActiveBackup), ArpInterval(250), \
            ArpIpTarget([10.0.0.1, 10.0.0.2]), ArpValidate(All), ArpAllTargets(Any), Primary(4), \
            PrimaryReselect(Better), FailOverMac(Active), MissedMax(3), \
            NsIp6Target([2001:db8::1, 2001:db8::2])]))])]
        28001200 09000100 626f6e64 00000000 18000200 14000800 08000500 0a000001 08000940 0a000002 -> \
            28001200 09000100 626f6e64 00000000 18000200 14000800 08000000 0a000001 08000100 0a000002 => \
            [LinkInfo([Kind(Bond), Data(Bond([ArpIpTarget([10.0.0.1, 10.0.0.2])]))])]
        28001200 09000100 626f6e64 00000000 18000200 14000800 08000000 0a000001 06000100 0a000000 => \
            a value of 2 bytes at attribute 8 of InfoBond";
    messages::<LinkMessage>(&rt, ZEROS, lines)
}

/// A flag is asked for without a value, and answered as a byte.
#[test]
fn reads_vxlan(rt: HostRuntime) -> Result<(), Fail> {
    let lines = "
        4c001200 0a000100 76786c61 6e000000 3c000200 08000100 2a000000 05001c00 01000000 04001c00 05001c00 \
            00000000 04001700 06000f00 12b50000 08000a00 27104e20 08001a00 00012345 -> \
            48001200 0a000100 76786c61 6e000000 38000200 08000100 2a000000 04001c00 04001c00 05001c00 00000000 \
            04001700 06000f00 12b50000 08000a00 27104e20 08001a00 00012345 => \
            [LinkInfo([Kind(Vxlan), Data(Vxlan([Id(42), TtlInherit(true), TtlInherit(true), TtlInherit(false), \
            Gbp(true), Port(4789), PortRange((10000, 20000)), Label(74565)]))])]
        1c001200 0a000100 76786c61 6e000000 0c000200 06001c00 00000000 => \
            a value of 2 bytes at attribute 28 of InfoVxlan";
    messages::<LinkMessage>(&rt, ZEROS, lines)
}

/// Links with an address of their own over another; those with a character device have the same data.
#[test]
fn reads_macvlan(rt: HostRuntime) -> Result<(), Fail> {
    let lines = "
        48001200 0c000100 6d616376 6c616e00 38000200 08000300 03000000 1c000500 0a000400 02000000 00050000 \
            0a000400 02000000 00060000 08000100 10000000 06000200 02000000 => \
            [LinkInfo([Kind(MacVlan), Data(MacVlan([MacAddrMode(Set), MacAddrData([MacAddr([2, 0, 0, 0, 0, 5]), \
            MacAddr([2, 0, 0, 0, 0, 6])]), Mode(Source), Flags(MacVlanFlags(2))]))])]
        08000300 6d743000 1c001200 0b000100 6d616376 74617000 0c000200 08000100 02000000 -> \
            08000300 6d743000 1c001200 0c000100 6d616376 74617000 0c000200 08000100 02000000 => \
            [IfName(\"mt0\"), LinkInfo([Kind(MacVtap), Data(MacVtap([Mode(Vepa)]))])]
        1c001200 0c000100 6d616376 74617000 0c000200 05000100 02000000 => \
            a value of 1 bytes at attribute 1 of InfoMacVlan";
    messages::<LinkMessage>(&rt, ZEROS, lines)
}

/// Tunnels of GRE: a truth value is written as 1, and a mark without a value.
#[test]
fn reads_gre(rt: HostRuntime) -> Result<(), Fail> {
    let lines = "
        5c001200 08000100 67726500 50000200 08000100 04000000 08000400 00000007 06000200 b0000000 08000600 \
            0a000001 06000e00 01000000 06000f00 01000000 06001100 15b30000 08001400 03000000 05000a00 02000000 \
            04001200 -> \
            5c001200 08000100 67726500 50000200 08000100 04000000 08000400 00000007 06000200 b0000000 08000600 \
            0a000001 06000e00 01000000 06000f00 01000000 06001100 15b30000 08001400 03000000 05000a00 01000000 \
            04001200 => \
            [LinkInfo([Kind(GreTun), Data(GreTun([Link(4), IKey(7), IFlags(GreIOFlags(45056)), Local(10.0.0.1), \
            EncapType(Fou), EncapFlags(GreEncapFlags(1)), DestinationPort(5555), FwMask(3), \
            PathMTUDiscovery(true), CollectMetadata]))])]
        1c001200 0b000100 69703667 72650000 0c000200 08000600 0a000001 => \
            a value of 4 bytes at attribute 6 of InfoGre6";
    messages::<LinkMessage>(&rt, ZEROS, lines)
}

/// Tunnels of IP in IP: what their flags are follows from the kind.
#[test]
fn reads_tunnels(rt: HostRuntime) -> Result<(), Fail> {
    let lines = "
        18001200 08000100 73697400 0c000200 06000800 01000000 28001200 0b000100 69703674 6e6c0000 18000200 \
            08000800 50000000 08000700 01054321 04001300 => \
            [LinkInfo([Kind(SitTun), Data(IpTunnel([Ipv6SitFlags(1)]))]), LinkInfo([Kind(Ip6Tnl), \
            Data(IpTunnel([Ipv6Flags(Ip6TunnelFlags(80)), FlowInfo(17122081), CollectMetadata(true)]))])]
        1c001200 09000100 69706970 00000000 0c000200 08000800 50000000 => \
            a value of 4 bytes at attribute 8 of InfoIpTunnel
        34001200 09000100 69706970 00000000 24000200 08000200 0a000001 05000900 04000000 05000900 06000000 \
            05000900 07000000 => \
            [LinkInfo([Kind(IpIp), Data(IpTunnel([Local(10.0.0.1), Protocol(Ipip), Protocol(Tcp), \
            Protocol(Other(7))]))])]
        30001200 09000100 76746936 00000000 20000200 14000400 20010db8 00000000 00000000 00000001 08000200 \
            00000001 => \
            [LinkInfo([Kind(Vti6), Data(Vti([Local(2001:db8::1), IKey(1)]))])]
        07000300 78660000 20001200 08000100 7866726d 14000200 08000200 34120000 08000100 04000000 -> \
            07000300 78660000 24001200 09000100 7866726d 00000000 14000200 08000200 34120000 08000100 04000000 => \
            [IfName(\"xf\"), LinkInfo([Kind(Xfrm), Data(Xfrm([IfId(4660), Link(4)]))])]";
    messages::<LinkMessage>(&rt, ZEROS, lines)
}

/// A pair that runs programs, with its other end.
#[test]
fn reads_netkit(rt: HostRuntime) -> Result<(), Fail> {
    let lines = "
        50001200 0b000100 6e65746b 69740000 40000200 08000500 01000000 08000300 07000000 08000600 09000000 \
            06000800 20000000 1c000100 00000000 00000000 00000000 00000000 08000400 b0040000 => \
            [LinkInfo([Kind(Netkit), Data(Netkit([Mode(L3), Policy(Redirect), Scrub(Other(9)), Headroom(32), \
            Peer(LinkPeer { header: LinkHeader { interface_family: Unspec, link_layer_type: Netrom, index: 0, \
            flags: LinkFlags(0), change_mask: LinkFlags(0) }, attributes: [Mtu(1200)] })]))])]";
    messages::<LinkMessage>(&rt, ZEROS, lines)
}

/// How a bond works, in the words of its driver.
#[test]
fn prints_bonds(rt: HostRuntime) -> Result<(), Fail> {
    says(&rt, BondMode::BalanceRr, "balance-rr")?;
    says(&rt, BondMode::Ieee8023Ad, "802.3ad")?;
    says(&rt, BondMode::Other(9), "unknown-variant (9)")?;
    says(&rt, BondArpValidate::FilterBackup, "filter_backup")?;
    says(&rt, BondArpAllTargets::All, "all")?;
    says(&rt, BondPrimaryReselect::Failure, "failure")?;
    says(&rt, BondFailOverMac::Follow, "follow")?;
    says(&rt, BondXmitHashPolicy::VlanSrcMac, "vlan-src-mac")
}

/// What stands between IP and a packet in a tunnel.
#[test]
fn prints_encapsulations(rt: HostRuntime) -> Result<(), Fail> {
    says(&rt, GreEncapType::Gue, "gue")?;
    says(&rt, GreEncapType::Other(4), "other(4)")?;
    says(&rt, TunnelEncapType::Mpls, "mpls")?;
    says(&rt, TunnelEncapType::Other(4), "4")
}

/// Links of MACsec, rings, and IP over InfiniBand.
#[test]
fn reads_devices(rt: HostRuntime) -> Result<(), Fail> {
    let lines = "
        44001200 0b000100 6d616373 65630000 34000200 0c000100 12345678 9abcdef0 0c000400 02000001 00c28000 \
            06000200 000b0000 05000700 01000000 05000f00 02000000 => \
            [LinkInfo([Kind(MacSec), Data(MacSec([Sci(1311768467463790320), CipherSuite(GcmAes256), Port(11), \
            Encrypt(1), Offload(Mac)]))])]
        30001200 08000100 68737200 24000200 08000100 04000000 08000200 05000000 05000700 01000000 08000800 \
            06000000 => \
            [LinkInfo([Kind(Hsr), Data(Hsr([Port1(4), Port2(5), Protocol(Prp), Interlink(6)]))])]
        2c001200 0a000100 69706f69 62000000 1c000200 06000100 01800000 06000200 01000000 06000300 01000000 => \
            [LinkInfo([Kind(Ipoib), Data(Ipoib([Pkey(32769), Mode(Connected), UmCast(1)]))])]
        1c001200 08000100 68737200 10000200 09000400 02000000 05000000 => \
            a value of 5 bytes at attribute 4 of InfoHsr";
    messages::<LinkMessage>(&rt, ZEROS, lines)
}

/// Kinds whose data are those of another, and tunnels of GTP and of OpenVPN.
#[test]
fn reads_others(rt: HostRuntime) -> Result<(), Fail> {
    let lines = "
        24001200 0b000100 65727370 616e0000 14000200 05001600 01000000 08001500 7b000000 => \
            [LinkInfo([Kind(Erspan), Data(Erspan([ErspanVer(1), ErspanIndex(123)]))])]
        30001200 0a000100 76786361 6e000000 20000200 1c000100 00000000 00000000 00000000 00000000 07000300 \
            63310000 => \
            [LinkInfo([Kind(Vxcan), Data(Vxcan([Peer(LinkPeer { header: LinkHeader { interface_family: Unspec, \
            link_layer_type: Netrom, index: 0, flags: LinkFlags(0), change_mask: LinkFlags(0) }, \
            attributes: [IfName(\"c1\")] })]))])]
        24001200 08000100 67747000 18000200 08000300 00040000 08000400 01000000 04000500 => \
            a value of 0 bytes at attribute 5 of InfoGtp
        30001200 08000100 67747000 24000200 08000300 00040000 08000400 01000000 05000500 01000000 05000600 \
            07000000 => \
            [LinkInfo([Kind(Gtp), Data(Gtp([PdpHashSize(1024), Role(1), CreateSockets(true), RestartCount(7)]))])]
        1c001200 09000100 6f76706e 00000000 0c000200 05000100 01000000 => \
            [LinkInfo([Kind(Ovpn), Data(Ovpn([Mode(MultiPeer)]))])]";
    messages::<LinkMessage>(&rt, ZEROS, lines)
}
