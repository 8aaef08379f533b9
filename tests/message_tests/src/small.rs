//! Next hop objects, name spaces, prefixes, settings, tables of neighbours, address labels and statistics: what
//! Linux tells of them, and what `ip` asks.

use netlink_packet_route::address_label::AddressLabelMessage;
use netlink_packet_route::neighbour_table::NeighbourTableMessage;
use netlink_packet_route::netconf::NetconfMessage;
use netlink_packet_route::nexthop::NextHopMessage;
use netlink_packet_route::nsid::NsidMessage;
use netlink_packet_route::prefix::PrefixMessage;
use netlink_packet_route::stats::StatsMessage;
use npr_testing::messages;
use std::test::Fail;

/// The type of an encapsulation governs it wherever it stands, and the first of two.
#[test]
fn reads_next_hops(rt: HostRuntime) -> Result<(), Fail> {
    let lines = "
        02fd0000 00000000 08000100 01000000 08000500 0f000000 08000600 0a000009 => \
            [Id(1), Oif(15), Gateway(Inet(10.0.0.9))]
        0a000400 04000000 08000100 02000000 14000600 20010db8 00000000 00000000 00000001 08000500 04000000 => \
            [Id(2), Gateway(Inet6(2001:db8::1)), Oif(4)]
        02000000 00000000 08000100 03000000 04000400 => [Id(3), Blackhole]
        02fd0000 00000000 08000100 09000000 08000500 0f000000 08000600 0a000009 10000800 0c000100 00064000 \
            000c8100 06000700 01000000 -> \
            02fd0000 00000000 08000100 09000000 08000500 0f000000 08000600 0a000009 10000880 0c000100 00064000 \
            000c8100 06000700 01000000 => \
            [Id(9), Oif(15), Gateway(Inet(10.0.0.9)), Encap([Mpls(Destination([MplsLabel { label: 100, \
            traffic_class: 0, bottom_of_stack: false, ttl: 0 }, MplsLabel { label: 200, traffic_class: 0, \
            bottom_of_stack: true, ttl: 0 }]))]), EncapType(Mpls)]
        02000000 00000000 06000600 0a00 => a value of 2 bytes at attribute 6 of NextHop
        00000000 00000000 04000900 => [Groups]
        00000000 00000000 06000700 01000000 06000700 02000000 => [EncapType(Mpls), EncapType(Ip)]";
    messages::<NextHopMessage>(&rt, "", lines)
}

/// Groups: entries one behind the other, of which a rest is dropped, and what a resilient one has besides.
#[test]
fn reads_groups(rt: HostRuntime) -> Result<(), Fail> {
    let lines = "
        00000000 00000000 08000100 05000000 06000300 00000000 14000200 01000000 02000000 0e000000 2b010000 \
            08000e00 00000080 => \
            [Id(5), GroupType(Mpath), Group([NextHopGroupEntry { id: 1, weight: 2 }, \
            NextHopGroupEntry { id: 14, weight: 299 }]), OpFlags(NextHopOpFlags(2147483648))]
        00000000 00000000 08000100 05000000 0e000200 01000000 02000000 0200 -> \
            00000000 00000000 08000100 05000000 0c000200 01000000 02000000 => \
            [Id(5), Group([NextHopGroupEntry { id: 1, weight: 2 }])]
        00000000 00000000 08000100 06000000 14000200 01000000 00000000 02000000 00000000 1c000c80 06000100 \
            20000000 08000200 70170000 08000300 30750000 06000300 01000000 => \
            [Id(6), Group([NextHopGroupEntry { id: 1, weight: 0 }, NextHopGroupEntry { id: 2, weight: 0 }]), \
            ResGroup([Buckets(32), IdleTimer(6000), UnbalancedTimer(30000)]), GroupType(Resilient)]
        00000000 00000000 08000100 04000000 06000300 00000000 0c000200 01000000 00000000 08001000 00000000 \
            20000f80 1c000180 08000100 01000000 08000200 00000000 08000300 00000000 08000e00 00000080 => \
            [Id(4), GroupType(Mpath), Group([NextHopGroupEntry { id: 1, weight: 0 }]), HwStatsEnable(0), \
            GroupStats([Entry([Id(1), Packets(0), PacketsHw(0)])]), OpFlags(NextHopOpFlags(2147483648))]
        00000000 00000000 08000100 06000000 20000d80 06000100 00000000 08000300 0e000000 0c000200 d1010000 \
            00000000 => [Id(6), ResBucket([Index(0), NhId(14), IdleTime(465)])]";
    messages::<NextHopMessage>(&rt, "", lines)
}

/// Unused bytes of a header are dropped.
#[test]
fn reads_name_spaces(rt: HostRuntime) -> Result<(), Fail> {
    let lines = "
        00000000 08000100 0c000000 => [Id(12)]
        00000000 08000300 05000000 08000100 ffffffff => [Fd(5), Id(-1)]
        00ff00ff 08000400 63000000 -> 00000000 08000400 63000000 => [TargetNsid(99)]
        00 => 1 bytes, where a header of 4 is wanted";
    messages::<NsidMessage>(&rt, "", lines)
}

/// What a router tells of a prefix.
#[test]
fn reads_prefixes(rt: HostRuntime) -> Result<(), Fail> {
    let lines = "
        0a000000 5b000000 0340c000 14000100 20010db8 00770000 00000000 00000000 0c000200 08070000 100e0000 => \
            [Address(2001:db8:77::), CacheInfo(CacheInfo { preferred_time: 1800, valid_time: 3600 })]
        0a000000 5b000000 0340c000 0b000200 08070000 100e0000 => 7 bytes, where a header of 8 is wanted";
    messages::<PrefixMessage>(&rt, "", lines)
}

/// Settings of an interface, and of all.
#[test]
fn reads_settings(rt: HostRuntime) -> Result<(), Fail> {
    let lines = "
        02000000 08000100 0f000000 08000200 00000000 08000300 00000000 08000400 00000000 08000800 00000000 \
            08000500 00000000 08000600 00000000 => \
            [IfIndex(15), Forwarding(0), RpFilter(0), McForwarding(0), BcForwarding(0), ProxyNeigh(0), \
            IgnoreRoutesWithLinkdown(0)]
        02000000 08000100 10000000 => [IfIndex(16)]
        1c000000 08000100 ffffffff 05000700 01000000 => a value of 1 bytes at attribute 7 of Netconf";
    messages::<NetconfMessage>(&rt, "", lines)
}

/// Tables of neighbours: a change, and what Linux tells.
#[test]
fn reads_tables(rt: HostRuntime) -> Result<(), Fail> {
    let lines = "
        00000000 0e000100 6172705f 63616368 65000000 10000600 08000100 04000000 0c000500 e8030000 00000000 => \
            an attribute of length 12 with 4 bytes left
        00000000 0e000100 6172705f 63616368 65000000 18000600 08000100 04000000 0c000500 e8030000 00000000 => \
            [Name(\"arp_cache\"), Parms([Ifindex(4), RetransTime(1000)])]
        02000000 0e000100 6172705f 63616368 65000000 0c000800 30750000 00000000 08000200 80000000 24000500 \
            04003801 01000000 f01e0000 405df9ff 13625385 07000000 00000000 00000000 5c000700 01000000 00000000 \
            00000000 00000000 00000000 00000000 00000000 00000000 03000000 00000000 02000000 00000000 00000000 \
            00000000 00000000 00000000 05000000 00000000 00000000 00000000 00000000 00000000 => \
            [Name(\"arp_cache\"), GcInterval(30000), Threshold1(128), Config(NeighbourTableConfig { key_len: 4, \
            entry_size: 312, entries: 1, last_flush: 7920, last_rand: 4294532416, hash_rand: 2236834323, \
            hash_mask: 7, hash_chain_gc: 0, proxy_qlen: 0 }), Stats(NeighbourTableStats { allocs: 1, \
            destroys: 0, hash_grows: 0, res_failed: 0, lookups: 3, hits: 2, multicast_probes_received: 0, \
            unicast_probes_received: 0, periodic_gc_runs: 5, forced_gc_runs: 0, table_fulls: 0 })]
        02000000 14000700 00000000 00000000 00000000 00000000 => 16 bytes, where a header of 88 is wanted
        00000000 04000600 => [Parms([])]";
    messages::<NeighbourTableMessage>(&rt, "", lines)
}

/// A label of addresses; a reserved byte is dropped.
#[test]
fn reads_labels(rt: HostRuntime) -> Result<(), Fail> {
    let lines = "
        0a002000 0f000000 0c000000 14000100 20010db9 00000000 00000000 00000000 08000200 62000000 => \
            [Address(2001:db9::), Label(98)]
        0aff2000 0f000000 0c000000 08000200 62000000 -> 0a002000 0f000000 0c000000 08000200 62000000 => [Label(98)]";
    messages::<AddressLabelMessage>(&rt, "", lines)
}

/// Statistics: whether hardware counts, as Linux tells it; what bonds and MPLS count.
#[test]
fn reads_statistics(rt: HostRuntime) -> Result<(), Fail> {
    let lines = "
        00000000 01000000 08000000 1c000400 18000280 14000380 05000100 00000000 05000200 00000000 => \
            [LinkOffloadXstats([HwStatsInfo([L3Stats([Request(0), Used(0)])])])]
        00000000 01000000 08000000 14000400 10000200 0c000300 05000100 01000000 -> \
            00000000 01000000 08000000 14000400 10000280 0c000380 05000100 01000000 => \
            [LinkOffloadXstats([HwStatsInfo([L3Stats([Request(1)])])])]
        00000000 01000000 10000000 04000500 => [AfSpec([])]
        00ff00ff 03000000 14000000 18000300 14000200 10000100 0c000000 54000000 00000000 -> \
            00000000 03000000 14000000 18000300 14000200 10000100 0c000000 54000000 00000000 => \
            [LinkXstatsSlave([Bond([Ad([LacpduRx(84)])])])]
        00000000 03000000 10000000 54000500 50001c00 4c000100 01000000 00000000 02000000 00000000 03000000 \
            00000000 04000000 00000000 05000000 00000000 06000000 00000000 07000000 00000000 08000000 00000000 \
            09000000 00000000 => \
            [AfSpec([Mpls([Link(MplsLinkStats { rx_packets: 1, tx_packets: 2, rx_bytes: 3, tx_bytes: 4, \
            rx_errors: 5, tx_errors: 6, rx_dropped: 7, tx_dropped: 8, rx_noroute: 9 })])])]
        00000000 05000000 02000000 3c000200 38000100 34000400 01000000 00000000 02000000 00000000 03000000 \
            00000000 04000000 00000000 05000000 00000000 06000000 00000000 => \
            [LinkXstats([Bridge([Stp(BridgeStpXstats { transition_blk: 1, transition_fwd: 2, rx_bpdu: 3, \
            tx_bpdu: 4, rx_tcn: 5, tx_tcn: 6 })])])]
        00000000 05000000 02000000 10000200 0c000100 08000400 01000000 => 4 bytes, where a header of 48 is wanted
        00000000 05000000 02000000 0c000200 08000700 01020304 => \
            [LinkXstats([Other(DefaultNla { kind: 7, value: [1, 2, 3, 4] })])]";
    messages::<StatsMessage>(&rt, "", lines)
}
