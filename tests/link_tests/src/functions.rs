//! Virtual functions of links, and what else few links have.

use netlink_packet_route::link::{LinkMessage, VfInfoTrust};
use npr_testing::{messages, shows};
use std::test::Fail;

/// A header of the interface 4.
const FOUR: &str = "00000000 04000000 00000000 00000000";

/// What a driver says of its virtual functions. Bytes of padding are not looked at.
#[test]
fn reads_functions(rt: HostRuntime) -> Result<(), Fail> {
    let lines = "
        30001600 2c000100 14000a00 01000000 ff7f0000 77665544 33221100 14000b00 01000000 ff7f0000 78665544 \
            33221100 -> \
            30001600 2c000100 14000a00 01000000 00000000 77665544 33221100 14000b00 01000000 00000000 78665544 \
            33221100 => \
            [VfInfoList([Info([IbNodeGuid(VfInfoGuid { vf_id: 1, guid: 4822678189205111 }), \
            IbPortGuid(VfInfoGuid { vf_id: 1, guid: 4822678189205112 })])])]
        14001600 10000100 0c000400 01000000 ffffffff => \
            [VfInfoList([Info([SpoofCheck(VfInfoSetting { vf_id: 1, setting: 4294967295 })])])]
        28001600 1c000100 18000c00 14000100 01000000 14000000 03000000 88a80000 05000200 05000000 => \
            [VfInfoList([Info([VlanList([Info(VfVlanInfo { vf_id: 1, vlan_id: 20, qos: 3, \
            protocol: Ieee8021Ad })])]), Other(DefaultNla { kind: 2, value: [5] })])]
        18001600 14000100 0e000100 01000000 00000000 00000000 => 10 bytes, where a header of 36 is wanted";
    messages::<LinkMessage>(&rt, FOUR, lines)
}

/// A setting is on where the driver says so.
#[test]
fn tells_settings(rt: HostRuntime) -> Result<(), Fail> {
    let of = |setting| VfInfoTrust { vf_id: 1, setting }.enabled();
    shows(&rt, [of(0), of(1), of(u32::MAX)], "[false, true, false]")
}

/// Ports as IEEE 802.1Qbg has them: those of virtual functions, and a link's own.
#[test]
fn reads_ports(rt: HostRuntime) -> Result<(), Fail> {
    let lines = "
        48001800 44000100 08000100 02000000 09000200 76706e31 00000000 14000400 00010203 04050607 08090a0b \
            0c0d0e0f 05000600 02000000 06000700 03000000 08000300 01020304 -> \
            48001800 44000100 08000100 02000000 09000200 76706e31 00000000 14000400 00010203 04050607 08090a0b \
            0c0d0e0f 05000600 02000000 06000700 03000000 08000300 01020304 => \
            [VfPorts([Port([Vf(2), Profile(\"vpn1\"), InstanceUuid([0, 1, 2, 3, 4, 5, 6, 7, 8, 9, 10, 11, 12, \
            13, 14, 15]), Request(2), Response(3), Other(DefaultNla { kind: 3, value: [1, 2, 3, 4] })])])]
        1c001980 06000700 00010000 10000580 00010203 04050607 08090a0b => a value of 12 bytes at attribute 5 of VfPort
        0c001980 06000700 00010000 -> 0c001900 06000700 00010000 => [PortSelf([Response(256)])]
        08001800 04000200 => [VfPorts([Other(DefaultNla { kind: 2, value: [] })])]
        0c001900 08000200 ff000000 => no UTF-8 at attribute 2 of VfPort";
    messages::<LinkMessage>(&rt, FOUR, lines)
}

/// The pin that a link is clocked by, and its port of devlink, are written with NESTED.
#[test]
fn reads_pins(rt: HostRuntime) -> Result<(), Fail> {
    let lines = "
        0c004100 08000100 05000000 08003e00 01020304 -> 0c004180 08000100 05000000 08003e80 01020304 => \
            [DpllPin([Id(5)]), DevlinkPort([1, 2, 3, 4])]
        10001a00 0c002d00 08000100 03000000 -> 10001a00 0c002d00 08000100 03000000 => \
            [AfSpecUnspec([Mctp([Net(3)])])]
        0a004180 06000100 0500 => a value of 2 bytes at attribute 1 of LinkDpllPin";
    messages::<LinkMessage>(&rt, FOUR, lines)
}
