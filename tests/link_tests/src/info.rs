//! What drivers say of links: kinds, and the data that they govern.

use netlink_packet_route::framing::{Looks, Parseable};
use netlink_packet_route::link::{InfoKind, InfoPortKind, LinkMessage, LinkPeer};
use npr_testing::{bytes_of, messages, same, says};
use std::test::Fail;

/// A header of zeros.
const ZEROS: &str = "00000000 00000000 00000000 00000000";

/// The fourth link.
const FOURTH: &str = "00000000 04000000 00000000 00000000";

/// The fourth link, which is an Ethernet that is up.
const ETHERNET: &str = "00000100 04000000 43100100 00000000";

/// `ip link add link if4 name v100 type vlan id 100`: names come without their zeros.
const VLAN: &str = "08000500 04000000 09000300 76313030 00000000 18001200 08000100 766c616e \
    0c000200 06000100 64000000";

/// The first kind of a list governs all its data, wherever it stands; data that nothing governs, or a
/// kind without a family, are bytes.
#[test]
fn governs_by_the_first_kind(rt: HostRuntime) -> Result<(), Fail> {
    let lines = "
        08000500 04000000 09000300 76313030 00000000 18001200 08000100 766c616e 0c000200 06000100 64000000 -> \
            08000500 04000000 09000300 76313030 00000000 1c001200 09000100 766c616e 00000000 0c000200 \
            06000100 64000000 => [Link(4), IfName(\"v100\"), LinkInfo([Kind(Vlan), Data(Vlan([Id(100)]))])]
        1c001200 0c000200 06000100 64000000 09000100 766c616e 00000000 => \
            [LinkInfo([Data(Vlan([Id(100)])), Kind(Vlan)])]
        34001200 09000100 766c616e 00000000 0c000200 06000100 64000000 0b000100 62726964 67650000 \
            0c000200 06000100 65000000 => \
            [LinkInfo([Kind(Vlan), Data(Vlan([Id(100)])), Kind(Bridge), Data(Vlan([Id(101)]))])]
        10001200 0c000200 08000100 64000000 => [LinkInfo([Data(Other([8, 0, 1, 0, 100, 0, 0, 0]))])]
        1c001200 0c000100 62617265 75647000 0c000200 06000100 19eb0000 => \
            [LinkInfo([Kind(Other(\"bareudp\")), Data(Other([6, 0, 1, 0, 25, 235, 0, 0]))])]
        1c001200 0a000100 766c616e 00000000 0c000200 06000100 64000000 => \
            [LinkInfo([Kind(Other(\"vlan\\0\")), Data(Other([6, 0, 1, 0, 100, 0, 0, 0]))])]
        04001200 => [LinkInfo([])]
        08000300 62723000 10001200 0a000100 62726964 67650000 -> \
            08000300 62723000 10001200 0b000100 62726964 67650000 => [IfName(\"br0\"), LinkInfo([Kind(Bridge)])]
        2c001200 08000100 76726600 0c000200 08000100 64000000 08000400 76726600 0c000500 08000100 64000000 => \
            [LinkInfo([Kind(Vrf), Data(Vrf([TableId(100)])), PortKind(Vrf), PortData(VrfPort([TableId(100)]))])]
        17001200 0c000200 08000100 64000000 07000100 767266 -> \
            18001200 0c000200 08000100 64000000 08000100 76726600 => \
            [LinkInfo([Data(Vrf([TableId(100)])), Kind(Vrf)])]";
    messages::<LinkMessage>(&rt, ZEROS, lines)
}

/// The first fault in reading order.
#[test]
fn refuses_data(rt: HostRuntime) -> Result<(), Fail> {
    let lines = "
        1c001200 09000100 766c616e 00000000 0c000200 08000100 64000000 => \
            a value of 4 bytes at attribute 1 of InfoVlan
        14001200 05000100 ff000000 06000200 01020000 => no UTF-8 at attribute 1 of LinkInfo
        20001200 09000100 766c616e 00000000 0e000200 06000100 64000000 0a000000 => \
            2 bytes, where an attribute begins with 4
        1c001200 0b000100 62726964 67650000 0c000200 07000a00 80002600 => \
            3 bytes, where a header of 8 is wanted
        1c001200 09000100 76657468 00000000 0c000200 07000100 00000000 => \
            3 bytes, where a header of 16 is wanted";
    messages::<LinkMessage>(&rt, ZEROS, lines)
}

/// Bridges, their ports, and VLANs with all that they have.
#[test]
fn reads_data(rt: HostRuntime) -> Result<(), Fail> {
    let lines = "
        54001200 0b000100 62726964 67650000 44000200 0c000a00 800026d5 943a2c86 06000800 88a80000 04001500 \
            05000e00 01000000 0c002e00 04000000 ff000000 14002f80 08000100 c0000201 08000200 0c000000 => \
            [LinkInfo([Kind(Bridge), Data(Bridge([RootId(BridgeId { priority: 32768, \
            address: [38, 213, 148, 58, 44, 134] }), VlanProtocol(Ieee8021Ad), FdbFlush, TopologyChange(1), \
            MultiBoolOpt(BridgeBooleanOptions { value: BridgeBooleanOptionFlags(4), \
            mask: BridgeBooleanOptionFlags(255) }), MulticastQuerierState([Ipv4Address(192.0.2.1), \
            Ipv4Port(12)])]))])]
        09000300 76313031 00000000 58001200 08000100 766c616e 4c000200 06000500 88a80000 06000100 fe0f0000 \
            1c000400 0c000100 01000000 02000000 0c000100 03000000 04000000 10000300 0c000100 05000000 \
            06000000 0c000200 1e000000 1f000000 -> 09000300 76313031 00000000 5c001200 09000100 766c616e \
            00000000 4c000200 06000500 88a80000 06000100 fe0f0000 1c000400 0c000100 01000000 02000000 \
            0c000100 03000000 04000000 10000300 0c000100 05000000 06000000 0c000200 1e000000 1f000000 => \
            [IfName(\"v101\"), LinkInfo([Kind(Vlan), Data(Vlan([Protocol(Ieee8021Ad), Id(4094), \
            IngressQos([Mapping(1, 2), Mapping(3, 4)]), EgressQos([Mapping(5, 6)]), \
            Flags((VlanFlags(30), VlanFlags(31)))]))])]
        1c001200 09000100 766c616e 00000000 0c000200 06000500 91000000 => \
            [LinkInfo([Kind(Vlan), Data(Vlan([Protocol(Other(37120))]))])]";
    messages::<LinkMessage>(&rt, ZEROS, lines)?;
    let port =
        "40001200 09000100 76657468 00000000 0b000400 62726964 67650000 24000500 05000100 03000000 \
        06000200 20000000 08000300 02000000 05002100 01000000 => [LinkInfo([Kind(Veth), PortKind(Bridge), \
        PortData(BridgePort([State(Forwarding), Priority(32), Cost(2), Isolated(true)]))])]";
    messages::<LinkMessage>(&rt, ETHERNET, port)?;
    let lines = "
        1c001200 0b000400 62726964 67650000 0c000500 05001800 01000000 -> \
            18001200 0b000400 62726964 67650000 08000500 04001800 => \
            [LinkInfo([PortKind(Bridge), PortData(BridgePort([Flush]))])]
        28001200 0e000100 626f6e64 5f736c61 76650000 14000500 06000500 05000000 08000900 fdffffff -> \
            28001200 0f000100 626f6e64 5f736c61 76650000 14000500 06000500 05000000 08000900 fdffffff => \
            [LinkInfo([Kind(Other(\"bond_slave\")), PortData(Other([6, 0, 5, 0, 5, 0, 0, 0, 8, 0, 9, 0, 253, \
            255, 255, 255]))])]";
    messages::<LinkMessage>(&rt, FOURTH, lines)
}

/// `ip link add ve0 type veth peer name ve1`; an end without attributes; and what a peer of a peer would be
/// is kept.
#[test]
fn reads_peers(rt: HostRuntime) -> Result<(), Fail> {
    let lines = "
        08000300 76653000 2c001200 08000100 76657468 20000200 1c000100 00000000 00000000 00000000 00000000 \
            08000300 76653100 -> 08000300 76653000 30001200 09000100 76657468 00000000 20000200 1c000100 \
            00000000 00000000 00000000 00000000 08000300 76653100 => [IfName(\"ve0\"), LinkInfo([Kind(Veth), \
            Data(Veth([Peer(LinkPeer { header: LinkHeader { interface_family: Unspec, link_layer_type: Netrom, \
            index: 0, flags: LinkFlags(0), change_mask: LinkFlags(0) }, attributes: [IfName(\"ve1\")] })]))])]
        30001200 09000100 76657468 00000000 20000200 14000100 00000000 00000000 00000000 00000000 05000700 \
            01000000 => [LinkInfo([Kind(Veth), Data(Veth([Peer(LinkPeer { header: LinkHeader { \
            interface_family: Unspec, link_layer_type: Netrom, index: 0, flags: LinkFlags(0), \
            change_mask: LinkFlags(0) }, attributes: [] }), Other(DefaultNla { kind: 7, value: [1] })]))])]
        4c001200 09000100 76657468 00000000 3c000200 38000100 00000000 00000000 00000000 00000000 06000300 \
            70000000 1c001200 09000100 76657468 00000000 0c000200 05000100 00000000 => \
            [LinkInfo([Kind(Veth), Data(Veth([Peer(LinkPeer { header: LinkHeader { interface_family: Unspec, \
            link_layer_type: Netrom, index: 0, flags: LinkFlags(0), change_mask: LinkFlags(0) }, \
            attributes: [IfName(\"p\"), Other(DefaultNla { kind: 18, value: [9, 0, 1, 0, 118, 101, 116, 104, \
            0, 0, 0, 0, 12, 0, 2, 0, 5, 0, 1, 0, 0, 0, 0, 0] })] })]))])]";
    messages::<LinkMessage>(&rt, ZEROS, lines)
}

/// Three looks at the attributes, two and two at the kind and the data, and one at the id; none fails.
#[test]
fn counts_looks(rt: HostRuntime) -> Result<(), Fail> {
    let bytes = bytes_of(&rt, &[ZEROS, VLAN])?;
    let mut looks = Looks::new();
    LinkMessage::parse_counted(rt.alloc(), bytes.as_slice(), &mut looks)?;
    same(looks.successful(), 8)?;
    same(looks.failed(), 0)
}

/// Kinds by their names, and any other as it stands.
#[test]
fn prints_kinds(rt: HostRuntime) -> Result<(), Fail> {
    says(&rt, InfoKind::GreTap6, "ip6gretap")?;
    says(&rt, InfoPortKind::Bond, "bond")?;
    let name = bytes_of(&rt, &["7777616e"])?;
    says(&rt, InfoKind::parse(rt.alloc(), name.as_slice())?, "wwan")
}

/// A peer by itself, and a new one.
#[test]
fn reads_a_lone_peer(rt: HostRuntime) -> Result<(), Fail> {
    let bytes = bytes_of(&rt, &[ZEROS])?;
    let peer = LinkPeer::parse(rt.alloc(), bytes.as_slice())?;
    same(peer, LinkPeer::new(rt.alloc()))
}
