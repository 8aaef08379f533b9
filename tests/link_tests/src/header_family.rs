//! What stands in a link message by the family of its header: numbers 12 and 26.

use netlink_packet_route::link::LinkMessage;
use npr_testing::messages;
use std::test::Fail;

/// The fourth link, of family bridge.
const BRIDGE: &str = "07000000 04000000 00000000 00000000";

/// The fourth link, of family inet6.
const INET6: &str = "0a000000 04000000 00000000 00000000";

/// No family, and the fourth link.
const FOURTH: &str = "00000000 04000000 00000000 00000000";

/// What `bridge` asks: `vlan add dev if4 vid 10 pvid untagged`; `vlan add dev if4 vid 10-12 tunnel_info id
/// 1000-1002 self`; `mst set dev if4 msti 10 state forwarding`, whose list is written with NESTED.
#[test]
fn reads_what_bridges_say(rt: HostRuntime) -> Result<(), Fail> {
    let lines = "
        0c001a00 08000200 06000a00 => \
            [AfSpecBridge([VlanInfo(BridgeVlanInfo { flags: BridgeVlanInfoFlags(6), vid: 10 })])]
        44001a00 06000000 02000000 1c000300 08000100 e8030000 06000200 0a000000 06000300 08000000 \
            1c000300 08000100 ea030000 06000200 0c000000 06000300 10000000 => \
            [AfSpecBridge([Flags(LowerDev), \
            VlanTunnelInfo([Id(1000), Vid(10), Flags(BridgeVlanInfoFlags(8))]), \
            VlanTunnelInfo([Id(1002), Vid(12), Flags(BridgeVlanInfoFlags(16))])])]
        1c001a00 18000600 14000180 06000100 0a000000 05000200 03000000 -> \
            1c001a00 18000680 14000100 06000100 0a000000 05000200 03000000 => \
            [AfSpecBridge([Mst([Entry([Msti(10), State(Forwarding)])])])]";
    messages::<LinkMessage>(&rt, BRIDGE, lines)
}

/// What Linux says of a bridge to `bridge vlan`.
#[test]
fn reads_a_bridge_of_a_dump(rt: HostRuntime) -> Result<(), Fail> {
    let line = "
        08000300 62723000 08000a00 15000000 08000400 78050000 05001000 02000000 0a000100 26d5943a 2c860000 \
            0c001a00 08000200 06000100 => \
            [IfName(\"br0\"), Controller(21), Mtu(1400), OperState(Down), Address([38, 213, 148, 58, 44, 134]), \
            AfSpecBridge([VlanInfo(BridgeVlanInfo { flags: BridgeVlanInfoFlags(6), vid: 1 })])]";
    messages::<LinkMessage>(&rt, "07000100 15000000 03100000 00000000", line)
}

/// What `bridge link set dev if4` asks, by `state 2` and `hwmode vepa`: a port is written with NESTED. A
/// port's state in one byte, as daemons once sent it, is no list.
#[test]
fn reads_ports_of_bridges(rt: HostRuntime) -> Result<(), Fail> {
    let lines = "
        0c000c80 05000100 02000000 => [ProtoInfoBridge([State(Learning)])]
        0c000c00 05000100 02000000 -> 0c000c80 05000100 02000000 => [ProtoInfoBridge([State(Learning)])]
        05000c00 03000000 => 1 bytes, where an attribute begins with 4
        04000c80 14001a00 06000000 02000000 06000100 01000000 => \
            [ProtoInfoBridge([]), AfSpecBridge([Flags(LowerDev), Mode(Vepa)])]";
    messages::<LinkMessage>(&rt, BRIDGE, lines)
}

/// What IP version 6 says; and under no family the attribute as it stands, with its flags.
#[test]
fn reads_other_protocols(rt: HostRuntime) -> Result<(), Fail> {
    let inet6 = "0c000c00 08000900 14050000 => [ProtoInfoInet6([RaMtu(1300)])]";
    messages::<LinkMessage>(&rt, INET6, inet6)?;
    let kept = "05000c80 03000000 => [ProtoInfoUnknown(DefaultNla { kind: 32780, value: [3] })]";
    messages::<LinkMessage>(&rt, FOURTH, kept)
}
