//! What is shown of links, and the names that they tell. The lines are those of `ip -d monitor file` on
//! the same bytes, where one blank stands for several, and none at an end; the objects are those of
//! `ip -j -d link`, in the order of their keys.

use netlink_packet_core::NLM_F_REQUEST;
use netlink_packet_route::{Action, MessageType, Subject};
use netlink_show::{Interfaces, Manner, Shown, append_lines, append_object};
use npr_testing::{bytes_of, same};
use std::alloc::Global;
use std::test::Fail;

/// `d0`, which is up, with another name.
const DUMMY: &str = "00000100 0f000000 c3000100 00000000 07000300 64300000 08000400 dc050000
    0c000600 6e6f7175 65756500 05001000 00000000 08001b00 07000000 0a000100 9ad462c0 c54b0000
    0a000200 ffffffff ffff0000 0f001400 6f662069 7473206f 776e0000 14003400 0f003500 7365636f
    6e642d6f 6e650000";

/// A VLAN over it.
const VLAN: &str = "00000100 1d000000 82000000 00000000 09000300 76313031 00000000 08000500 0f000000
    08000400 dc050000 09000600 6e6f6f70 00000000 05001000 02000000 08001b00 00000000 0a000100
    9ad462c0 c54b0000 0a000200 ffffffff ffff0000 5c001200 09000100 766c616e 00000000 4c000200
    06000500 88a80000 06000100 fe0f0000 0c000200 06000000 ffffffff 1c000400 0c000100 01000000
    02000000 0c000100 03000000 04000000 10000300 0c000100 05000000 06000000";

/// A port of a bridge, whose other end is in another network namespace.
const PORT: &str = "00000100 58000000 02100000 00000000 08000300 766e3000 08000500 0b000000 08002500
    0c000000 08000a00 15000000 70001200 09000100 76657468 00000000 0b000400 62726964 67650000
    54000500 05000100 01000000 06000200 20000000 08000300 02000000 05000400 00000000 05000800
    01000000 06001100 01800000 0c000e00 10008e95 082faafd 0c001600 39040000 00000000 06001f00
    05000000";

/// A neighbour on `d0`.
const NEIGHBOUR: &str = "02000000 0f000000 80000001 08000100 c0000203 0a000200 02000000 00010000";

/// A link over `d0` whose message has nothing but its data.
const TAG: &str = "00000100 1d000000 82000000 00000000 09000300 76313031 00000000 08000500 0f000000
    24001200 09000100 766c616e 00000000 14000200 06000500 81000000 06000100 64000000";

const LINES: &str =
    "15: d0: <BROADCAST,NOARP,UP,LOWER_UP> mtu 1500 qdisc noqueue state UNKNOWN group 7
    link/ether 9a:d4:62:c0:c5:4b brd ff:ff:ff:ff:ff:ff
    alias of its own
    altname second-one
29: v101@d0: <BROADCAST,NOARP> mtu 1500 qdisc noop state DOWN group default
    link/ether 9a:d4:62:c0:c5:4b brd ff:ff:ff:ff:ff:ff
    vlan protocol 802.1ad id 4094 <GVRP,LOOSE_BINDING>
      ingress-qos-map { 1:2 3:4 }
      egress-qos-map { 5:6 }
88: vn0@if11: <BROADCAST,MULTICAST> master 21
    link/ether link-netnsid 12
    veth
    bridge_slave state listening priority 32 cost 2 hairpin off learning on port_id 0x8001 designated_bridge 1000.8e:95:8:2f:aa:fd forward_delay_timer 10.81 group_fwd_mask 0x5 group_fwd_mask_str stp,lacp
192.0.2.3 dev d0 lladdr 02:00:00:00:00:01 PERMANENT
Deleted 15: d0: <BROADCAST,NOARP,UP,LOWER_UP> mtu 1500 qdisc noqueue state UNKNOWN group 7
    link/ether 9a:d4:62:c0:c5:4b brd ff:ff:ff:ff:ff:ff
    alias of its own
    altname second-one
192.0.2.3 dev 15 lladdr 02:00:00:00:00:01 PERMANENT
";

const OBJECT: &str =
    "{\"change\":\"0\",\"family\":\"unspec\",\"flags\":[\"BROADCAST\",\"NOARP\"],\"ifindex\":29,\"ifname\":\"v101\",\"link\":\"d0\",\"link_type\":\"ether\",\"linkinfo\":{\"info_data\":{\"id\":100,\"protocol\":\"802.1Q\"},\"info_kind\":\"vlan\"},\"message\":\"link\"}
";

/// A message on this, which does this, without an envelope.
fn lone(subject: Subject, action: Action, payload: &[u8]) -> Shown<'_> {
    let says = MessageType::Of(subject, action);
    Shown {
        kind: says.kind(),
        says,
        message_type: 0,
        flags: 0,
        payload,
    }
}

fn manner(alloc: Global, interfaces: &Interfaces) -> Manner<'_> {
    Manner {
        alloc,
        numeric: false,
        tells_family: false,
        interfaces,
    }
}

#[test]
fn a_link_tells_its_name_until_it_is_gone(rt: HostRuntime) -> Result<(), Fail> {
    let alloc = rt.alloc();
    let mut interfaces = Interfaces::new(alloc);
    let mut text = String::new(alloc);
    for (subject, action, digits) in [
        (Subject::Link, Action::New, DUMMY),
        (Subject::Link, Action::New, VLAN),
        (Subject::Link, Action::New, PORT),
        (Subject::Neighbour, Action::New, NEIGHBOUR),
        (Subject::Link, Action::Del, DUMMY),
        (Subject::Neighbour, Action::New, NEIGHBOUR),
    ] {
        let bytes = bytes_of(&rt, &[digits])?;
        let message = lone(subject, action, bytes.as_slice());
        interfaces.note(alloc, message)?;
        append_lines(manner(alloc, &interfaces), message, &mut text)?;
    }
    same(text.as_str(), LINES)
}

#[test]
fn an_object_has_the_name_of_the_link_under_it(rt: HostRuntime) -> Result<(), Fail> {
    let alloc = rt.alloc();
    let mut interfaces = Interfaces::new(alloc);
    let dummy = bytes_of(&rt, &[DUMMY])?;
    interfaces.note(alloc, lone(Subject::Link, Action::New, dummy.as_slice()))?;
    let tag = bytes_of(&rt, &[TAG])?;
    let message = lone(Subject::Link, Action::New, tag.as_slice());
    let mut text = String::new(alloc);
    append_object(manner(alloc, &interfaces), message, &mut text)?;
    same(text.as_str(), OBJECT)
}

#[test]
fn a_request_tells_no_name(rt: HostRuntime) -> Result<(), Fail> {
    let mut interfaces = Interfaces::new(rt.alloc());
    let bytes = bytes_of(&rt, &[DUMMY])?;
    let mut message = lone(Subject::Link, Action::New, bytes.as_slice());
    message.flags = NLM_F_REQUEST;
    interfaces.note(rt.alloc(), message)?;
    same(interfaces.name_of(15), None)?;
    message.flags = 0;
    interfaces.note(rt.alloc(), message)?;
    same(interfaces.name_of(15), Some("d0"))
}
