//! The tables of a kernel, each with the request for it.

use netlink_packet_route::AddressFamily;
use netlink_packet_route::RouteNetlinkMessage::{self, *};
use netlink_packet_route::envelope::NetlinkMessage;
use netlink_packet_route::link::{LinkAttribute, LinkExtentMask, LinkMessage};
use netlink_packet_route::memory::Global;
use netlink_packet_route::neighbour::{NeighbourFlags, NeighbourMessage};
use netlink_packet_route::nexthop::NextHopMessage;
use netlink_packet_route::request::*;
use netlink_packet_route::tc::TcActionMessageAttribute::{Actions, Flags};
use netlink_packet_route::tc::{
    TcAction, TcActionAttribute, TcActionMessage, TcActionMessageFlags,
    TcActionMessageFlagsWithSelector, TcHandle, TcMessage,
};

/// The sequence number of each request: an answer is heard to its end before the next is asked for.
pub const NUMBER: u32 = 1;

/// A handle's bits below which those of `linux/pkt_sched.h` name the two ways of `clsact`.
const WAYS: [u16; 2] = [0xfff2, 0xfff3];

/// The kinds of actions that kernels have most often.
const ACTIONS: [&str; 14] = [
    "gact",
    "mirred",
    "nat",
    "tunnel_key",
    "police",
    "skbedit",
    "vlan",
    "pedit",
    "csum",
    "mpls",
    "simple",
    "sample",
    "ct",
    "bpf",
];

/// What is asked for: its name, which is that of a file, the request, and how `ip` or `tc` is asked for the same; nothing where
/// they have no such table.
pub struct Table {
    pub name: String,
    pub request: NetlinkMessage<RouteNetlinkMessage>,
    pub command: String,
}

fn table(
    name: impl Into<String>,
    command: impl Into<String>,
    request: NetlinkMessage<RouteNetlinkMessage>,
) -> Table {
    Table {
        name: name.into(),
        request,
        command: command.into(),
    }
}

/// Tables of which there is one of each version of IP.
fn by_version(digit: char, family: AddressFamily) -> [Table; 4] {
    [
        table(
            format!("address-{digit}"),
            format!("ip -j -d -{digit} address"),
            dump_addresses(Global, NUMBER, family),
        ),
        table(
            format!("route-{digit}"),
            format!("ip -j -d -{digit} route show table all"),
            dump_routes(Global, NUMBER, family),
        ),
        table(
            format!("rule-{digit}"),
            format!("ip -j -d -{digit} rule"),
            dump_rules(Global, NUMBER, family),
        ),
        table(
            format!("neighbour-{digit}"),
            format!("ip -j -{digit} neighbour show nud all"),
            dump_neighbours(Global, NUMBER, family),
        ),
    ]
}

/// The links, as a family says of them.
fn links(name: &str, family: AddressFamily, mask: Option<LinkExtentMask>) -> Table {
    let mut message = LinkMessage::default();
    message.header.interface_family = family;
    message.attributes.extend(mask.map(LinkAttribute::ExtMask));
    table(name, "", dump(NUMBER, message))
}

/// Neighbours that no family of IP has of its own: those of bridges, and those answered for.
fn other_neighbours() -> [Table; 2] {
    let mut proxies = NeighbourMessage::default();
    proxies.header.flags = NeighbourFlags::Proxy;
    [
        table(
            "neighbour-bridge",
            "bridge -j -d fdb",
            dump_neighbours(Global, NUMBER, AddressFamily::Bridge),
        ),
        table(
            "neighbour-proxy",
            "ip -j neighbour show proxy",
            dump(NUMBER, proxies),
        ),
    ]
}

/// Tables that are small.
fn small() -> [Table; 9] {
    let every = AddressFamily::Unspec;
    let buckets = GetNextHopBucket(NextHopMessage::default());
    [
        table(
            "neighbour-table",
            "ip -j ntable",
            dump_neighbour_tables(Global, NUMBER, every),
        ),
        table(
            "netconf",
            "ip -j netconf",
            dump_netconfs(Global, NUMBER, every),
        ),
        table(
            "address-label",
            "ip -j addrlabel",
            dump_address_labels(Global, NUMBER, AddressFamily::Inet6),
        ),
        table("nsid", "ip -j netns list-id", dump_nsids(Global, NUMBER)),
        table(
            "nexthop",
            "ip -j -d nexthop",
            dump_next_hops(Global, NUMBER, every),
        ),
        table(
            "bucket",
            "ip -j -d nexthop bucket",
            NetlinkMessage::dump_request(NUMBER, buckets),
        ),
        table(
            "route-mpls",
            "ip -j -d -f mpls route",
            dump_routes(Global, NUMBER, AddressFamily::Mpls),
        ),
        table(
            "qdisc",
            "tc -j -s -d qdisc",
            dump(NUMBER, TcMessage::default()),
        ),
        table(
            "stats",
            "",
            dump_stats(Global, NUMBER, 0x1f).expect("memory for a header"),
        ),
    ]
}

/// The actions of a kind, all of them in as few messages as they take, as `tc` asks.
fn actions(kind: &str) -> Table {
    let mut action = TcAction::new(Global);
    action.attributes.push(TcActionAttribute::Kind(kind.into()));
    let mut message = TcActionMessage::default();
    message.attributes.push(Actions(vec![action]));
    message
        .attributes
        .push(Flags(TcActionMessageFlagsWithSelector::new(
            TcActionMessageFlags::LargeDump,
        )));
    let command = format!("tc -j -s -d actions list action {kind}");
    table(format!("action-{kind}"), command, dump(NUMBER, message))
}

/// The tables that no other names.
pub fn first() -> Vec<Table> {
    let all = dump_links(Global, NUMBER, LinkExtentMask::Vf).expect("memory for a mask");
    let vlans = LinkExtentMask::Vf | LinkExtentMask::Brvlan | LinkExtentMask::SkipStats;
    let mut tables = vec![
        table("link", "ip -j -d -s link", all),
        links("link-bridge", AddressFamily::Bridge, Some(vlans)),
        links("link-6", AddressFamily::Inet6, None),
    ];
    tables.extend(by_version('4', AddressFamily::Inet));
    tables.extend(by_version('6', AddressFamily::Inet6));
    tables.extend(other_neighbours());
    tables.extend(small());
    tables.extend(ACTIONS.map(actions));
    tables
}

/// The classes of a device.
pub fn classes(index: u32, device: &str) -> Table {
    let message = TcMessage::with_index(index as i32);
    let request = NetlinkMessage::dump_request(NUMBER, GetTrafficClass(message));
    table(
        format!("class-{device}"),
        format!("tc -j -s -d class show dev {device}"),
        request,
    )
}

/// The filters and the chains of a queueing discipline: of `clsact` those of both ways.
pub fn filters(message: &TcMessage, kind: &str, device: &str) -> Vec<Table> {
    let mut tables = Vec::new();
    let handle = message.header.handle;
    let minors = if kind == "clsact" { &WAYS[..] } else { &[0] };
    for minor in minors {
        let parent = TcHandle {
            minor: *minor,
            ..handle
        };
        let mut asked = TcMessage::with_index(message.header.index);
        asked.header.parent = parent;
        let place = format!("{device} parent {:x}:{minor:x}", parent.major);
        let name = format!("{device}-{:x}-{minor:x}", parent.major);
        let chains = NetlinkMessage::dump_request(NUMBER, GetTrafficChain(asked.clone()));
        let request = NetlinkMessage::dump_request(NUMBER, GetTrafficFilter(asked));
        tables.push(table(
            format!("filter-{name}"),
            format!("tc -j -s -d filter show dev {place}"),
            request,
        ));
        tables.push(table(
            format!("chain-{name}"),
            format!("tc -j -s -d chain show dev {place}"),
            chains,
        ));
    }
    tables
}
