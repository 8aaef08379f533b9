//! What is shown of next hops, name spaces, settings, labels, prefixes and tables of neighbours. The
//! lines are those of `ip -d monitor file` on the same bytes, and of tables those of `ip -s ntable`,
//! where one blank stands for several, and none at an end; before the interface of a prefix `ip` has
//! none. The object is that of `ip -j nexthop`, in the order of its keys, with ours beside.

use netlink_packet_core::{NetlinkBuffer, NetlinkIterator};
use netlink_show::{Interfaces, Manner, Shown, append_lines, append_object};
use npr_testing::{bytes_of, same};
use std::alloc::Global;
use std::test::Fail;

/// A link that tells its name.
const LINK: &str =
    "28000000 10000000 00000000 00000000 00000100 0f000000 c3000100 00000000 07000300 64300000";

/// A next hop over it with an encapsulation, whose type stands behind it; a group with weights; one
/// that is gone; and a bucket.
const NEXT_HOPS: &str = "48000000 68000000 00000000 00000000 02fd0000 00000000 08000100 09000000
    08000500 0f000000 08000600 0a000009 10000800 0c000100 00064000 000c8100 06000700 01000000
    44000000 68000000 00000000 00000000 00000000 00000000 08000100 05000000 06000300 00000000
    14000200 01000000 02000000 0e000000 ff000000 08000e00 00000080
    20000000 69000000 00000000 00000000 00000000 00000000 08000100 15000000
    40000000 74000000 00000000 00000000 00000000 00000000 08000100 06000000 20000d80 06000100
    00000000 08000300 0e000000 0c000200 d1010000 00000000";

/// A resilient group.
const RESILIENT: &str = "6c000000 68000000 00000000 00000000 00000000 00000000 08000100 06000000
    06000300 01000000 14000200 01000000 00000000 0e000000 00000000 28000c80 06000100 04000000
    08000200 70170000 08000300 30750000 0c000400 00000000 00000000 08000e00 00000080";

/// Numbers of name spaces; settings of an interface, of all, and of one that is gone; a label that is
/// gone; and a prefix.
const SMALL: &str = "1c000000 58000000 00000000 00000000 00000000 08000100 0d000000
    1c000000 58000000 00000000 00000000 00000000 08000100 ffffffff
    34000000 50000000 00000000 00000000 0a000000 08000100 0f000000 08000200 00000000 08000500
    00000000 08000600 00000000
    24000000 50000000 00000000 00000000 02000000 08000100 ffffffff 08000300 02000000
    1c000000 51000000 00000000 00000000 1c000000 08000100 0f000000
    38000000 49000000 00000000 00000000 0a004000 00000000 00000000 08000200 07000000 14000100
    fe800000 00000000 00000000 00000000
    3c000000 34000000 00000000 00000000 0a000000 0f000000 03400300 14000100 20010db8 00770000
    00000000 00000000 0c000200 08070000 100e0000";

/// What a table has counted, and the parameters of an interface.
const TABLES: &str =
    "94000000 40000000 00000000 00000000 02000000 0e000100 6172705f 63616368 65000000
    0c000800 30750000 00000000 08000200 80000000 5c000700 01000000 00000000 00000000 00000000
    00000000 00000000 00000000 00000000 03000000 00000000 02000000 00000000 00000000 00000000
    00000000 00000000 05000000 00000000 00000000 00000000 00000000 00000000
    ac000000 40000000 00000000 00000000 02000000 0e000100 6172705f 63616368 65000000 88000600
    08000100 0f000000 0c000400 30750000 00000000 0c000500 e8030000 00000000 0c000600 60ea0000
    00000000 0c000700 88130000 00000000 08000800 65000000 08000900 00000000 08000a00 03000000
    08000b00 03000000 0c000c00 e8030000 00000000 0c000d00 20030000 00000000 08000e00 40000000
    0c000f00 e8030000 00000000";

const LINES: &str = "15: d0: <BROADCAST,NOARP,UP,LOWER_UP>
    link/ether
id 9 encap mpls 100/200 via 10.0.0.9 dev d0 scope link proto unspec
id 5 group 1,3/14,256 scope global proto unspec
Deleted id 21 scope global proto unspec
id 6 index 0 idle_time 4.65 nhid 14
id 6 group 1/14 type resilient buckets 4 idle_timer 60 unbalanced_timer 300 unbalanced_time 0 scope global proto unspec
nsid 13
nsid unassigned
inet6 d0 forwarding off proxy_neigh off ignore_routes_with_linkdown off
inet all rp_filter loose
Deleted mpls d0
Deleted prefix fe80::/64 label 7
prefix 2001:db8:77::/64 dev d0 onlink autoconf valid 3600 preferred 1800
inet arp_cache
    thresh1 128 gc_int 30000
    stats allocs 1 destroys 0 hash_grows 0
    res_failed 0 lookups 3 hits 2
    rcv_probes_mcast 0 rcv_probes_ucast 0
    periodic_gc_runs 5 forced_gc_runs 0
    table_fulls 0
inet arp_cache
    dev d0 base_reachable 30000 retrans 1000
    gc_stale 60000 delay_probe 5000 queue 101
    app_probes 0 ucast_probes 3 mcast_probes 3
    anycast_delay 1000 proxy_delay 800 proxy_queue 64 locktime 1000
";

const OBJECT: &str =
    "{\"family\":\"unspec\",\"flags\":[],\"group\":[{\"id\":1},{\"id\":14}],\"id\":6,\"message\":\"nexthop\",\"op_flags\":[\"resp_grp_resvd_0\"],\"protocol\":\"unspec\",\"resilient_args\":{\"buckets\":4,\"idle_timer\":60,\"unbalanced_time\":0,\"unbalanced_timer\":300},\"scope\":\"global\",\"type\":\"resilient\"}
";

/// Whether a line or an object is wanted.
#[derive(Clone, Copy, PartialEq, Eq)]
enum Form {
    Line,
    Object,
}

/// Appends what is shown of a message, which may tell the name of an interface.
fn append(
    alloc: Global,
    form: Form,
    interfaces: &mut Interfaces,
    found: &NetlinkBuffer<'_>,
    text: &mut String,
) -> Result<(), Fail> {
    let message = Shown::of(found);
    message.check()?;
    interfaces.note(alloc, message)?;
    let manner = Manner {
        alloc,
        numeric: false,
        tells_family: false,
        interfaces,
    };
    match form {
        Form::Line => append_lines(manner, message, text)?,
        Form::Object => append_object(manner, message, text)?,
    }
    Ok(())
}

/// What is shown of the messages of a datagram.
fn shown(alloc: Global, form: Form, datagram: &[u8]) -> Result<String, Fail> {
    let mut interfaces = Interfaces::new(alloc);
    let mut text = String::new(alloc);
    for found in NetlinkIterator::new(datagram) {
        append(alloc, form, &mut interfaces, &found?, &mut text)?;
    }
    Ok(text)
}

#[test]
fn small_messages_are_shown_as_ip_does(rt: HostRuntime) -> Result<(), Fail> {
    let bytes = bytes_of(&rt, &[LINK, NEXT_HOPS, RESILIENT, SMALL, TABLES])?;
    let text = shown(rt.alloc(), Form::Line, bytes.as_slice())?;
    same(text.as_str(), LINES)
}

#[test]
fn an_object_has_the_keys_of_ip(rt: HostRuntime) -> Result<(), Fail> {
    let bytes = bytes_of(&rt, &[RESILIENT])?;
    let text = shown(rt.alloc(), Form::Object, bytes.as_slice())?;
    same(text.as_str(), OBJECT)
}
