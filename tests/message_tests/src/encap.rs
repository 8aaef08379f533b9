//! Encapsulations of routes, and the type that governs them.

use netlink_packet_route::route::RouteMessage;
use npr_testing::{INET, messages};
use std::test::Fail;

/// Without a type a member is kept as it stands, all 16 bits of its kind. The first type governs,
/// wherever it stands. NESTED follows what stands inside, and the flags of a known number are lost.
#[test]
fn encapsulations(rt: HostRuntime) -> Result<(), Fail> {
    let lines = "
        0c001600 08000100 000641ff => [Encap([Other(DefaultNla { kind: 1, value: [0, 6, 65, 255] })])]
        14001680 10000880 0c000180 06000100 01020000 -> \
            14001600 10000880 0c000180 06000100 01020000 => \
            [Encap([Other(DefaultNla { kind: 32776, value: [12, 0, 1, 128, 6, 0, 1, 0, 1, 2, 0, 0] })])]
        0c001600 08000100 000641ff 06001500 01000000 => \
            [Encap([Mpls(Destination([MplsLabel { label: 100, traffic_class: 0, bottom_of_stack: true, \
            ttl: 255 }]))]), EncapType(Mpls)]
        06001500 01000000 0c001600 08000100 000641ff => \
            [EncapType(Mpls), Encap([Mpls(Destination([MplsLabel { label: 100, traffic_class: 0, \
            bottom_of_stack: true, ttl: 255 }]))])]
        0c001600 08000100 000641ff 06001500 01000000 06001500 02000000 => \
            [Encap([Mpls(Destination([MplsLabel { label: 100, traffic_class: 0, bottom_of_stack: true, \
            ttl: 255 }]))]), EncapType(Mpls), EncapType(Ip)]
        0c001600 08000100 000641ff 06001500 0a000000 06001500 01000000 -> \
            0c001680 08000100 000641ff 06001500 0a000000 06001500 01000000 => \
            [Encap([Xfrm(IfId(4282451456))]), EncapType(Xfrm), EncapType(Mpls)]
        0c001600 08000100 000641ff 060015c0 01000000 -> \
            0c001600 08000100 000641ff 06001500 01000000 => \
            [Encap([Mpls(Destination([MplsLabel { label: 100, traffic_class: 0, bottom_of_stack: true, \
            ttl: 255 }]))]), EncapType(Mpls)]
        0c001600 08000100 07000000 06001500 0a000000 -> \
            0c001680 08000100 07000000 06001500 0a000000 => \
            [Encap([Xfrm(IfId(7))]), EncapType(Xfrm)]
        14001680 10000880 0c000280 08000100 2a000000 06001500 02000000 => \
            [Encap([Ip(Opts([Vxlan([Gbp(42)])]))]), EncapType(Ip)]
        14001680 10000880 0c000180 06000100 01020000 06001500 02000000 -> \
            20001680 1c000880 18000180 06000100 01020000 05000200 00000000 04000300 \
            06001500 02000000 => \
            [Encap([Ip(Opts([Geneve([RouteGeneveOpt { class: 258, typ: 0, opt_data: [] }])]))]), \
            EncapType(Ip)] # A class of Geneve alone.
        10001680 0c000880 08000180 04000400 06001500 02000000 => Geneve option attribute 4 is unknown
        08001600 03000100 => an attribute of length 3 with 4 bytes left
        05001600 01000000 06001500 01000000 => \
            1 bytes, where an attribute begins with 4 # The type is found before the fault.
        05001500 01000000 06001500 01000000 => \
            a value of 1 bytes at attribute 21 of Route # A type of one byte governs nothing.";
    messages::<RouteMessage>(&rt, INET, lines)
}
