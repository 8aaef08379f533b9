//! Links.

use crate::AddressFamily;
use crate::buffers::{layout, list, message, numbers, value};
pub use crate::kept::{LinkPhysId, LinkXstats};
pub use crate::netlink_packet_route::link::*;
use netlink_packet_core::{DecodeError, ParseableParametrized};

layout!(LinkMessageBuffer {
    interface_family: u8,
    reserved_1: u8,
    link_layer_type: u16,
    link_index: u32,
    flags: u32,
    change_mask: u32,
    payload: ..
});
layout!(MapBuffer {
    memory_start: u64, memory_end: u64, base_address: u64, irq: u16, dma: u8, port: u8, - 4
});
layout!(StatsBuffer {
    rx_packets: u32,
    tx_packets: u32,
    rx_bytes: u32,
    tx_bytes: u32,
    rx_errors: u32,
    tx_errors: u32,
    rx_dropped: u32,
    tx_dropped: u32,
    multicast: u32,
    collisions: u32,
    rx_length_errors: u32,
    rx_over_errors: u32,
    rx_crc_errors: u32,
    rx_frame_errors: u32,
    rx_fifo_errors: u32,
    rx_missed_errors: u32,
    tx_aborted_errors: u32,
    tx_carrier_errors: u32,
    tx_fifo_errors: u32,
    tx_heartbeat_errors: u32,
    tx_window_errors: u32,
    rx_compressed: u32,
    tx_compressed: u32,
    rx_nohandler: u32
});
layout!(Stats64Buffer {
    rx_packets: u64,
    tx_packets: u64,
    rx_bytes: u64,
    tx_bytes: u64,
    rx_errors: u64,
    tx_errors: u64,
    rx_dropped: u64,
    tx_dropped: u64,
    multicast: u64,
    collisions: u64,
    rx_length_errors: u64,
    rx_over_errors: u64,
    rx_crc_errors: u64,
    rx_frame_errors: u64,
    rx_fifo_errors: u64,
    rx_missed_errors: u64,
    tx_aborted_errors: u64,
    tx_carrier_errors: u64,
    tx_fifo_errors: u64,
    tx_heartbeat_errors: u64,
    tx_window_errors: u64,
    rx_compressed: u64,
    tx_compressed: u64,
    rx_nohandler: u64,
    rx_otherhost_dropped: u64
});
layout!(Inet6CacheInfoBuffer {
    max_reasm_len: i32,
    tstamp: i32,
    reachable_time: i32,
    retrans_time: i32
});
layout!(Inet6DevConfBuffer {
    forwarding: i32,
    hoplimit: i32,
    mtu6: i32,
    accept_ra: i32,
    accept_redirects: i32,
    autoconf: i32,
    dad_transmits: i32,
    rtr_solicits: i32,
    rtr_solicit_interval: i32,
    rtr_solicit_delay: i32,
    use_tempaddr: i32,
    temp_valid_lft: i32,
    temp_prefered_lft: i32,
    regen_max_retry: i32,
    max_desync_factor: i32,
    max_addresses: i32,
    force_mld_version: i32,
    accept_ra_defrtr: i32,
    accept_ra_pinfo: i32,
    accept_ra_rtr_pref: i32,
    rtr_probe_interval: i32,
    accept_ra_rt_info_max_plen: i32,
    proxy_ndp: i32,
    optimistic_dad: i32,
    accept_source_route: i32,
    mc_forwarding: i32,
    disable_ipv6: i32,
    accept_dad: i32,
    force_tllao: i32,
    ndisc_notify: i32,
    mldv1_unsolicited_report_interval: i32,
    mldv2_unsolicited_report_interval: i32,
    suppress_frag_ndisc: i32,
    accept_ra_from_local: i32,
    use_optimistic: i32,
    accept_ra_mtu: i32,
    stable_secret: i32,
    use_oif_addrs_only: i32,
    accept_ra_min_hop_limit: i32,
    ignore_routes_with_linkdown: i32,
    drop_unicast_in_l2_multicast: i32,
    drop_unsolicited_na: i32,
    keep_addr_on_down: i32,
    rtr_solicit_max_interval: i32,
    seg6_enabled: i32,
    seg6_require_hmac: i32,
    enhanced_dad: i32,
    addr_gen_mode: i32,
    disable_policy: i32,
    accept_ra_rt_info_min_plen: i32,
    ndisc_tclass: i32,
    rpl_seg_enabled: i32,
    ra_defrtr_metric: i32,
    ioam6_enabled: i32,
    ioam6_id: i32,
    ioam6_id_wide: i32,
    ndisc_evict_nocarrier: i32,
    accept_untracked_na: i32,
    accept_ra_min_lft: i32
});
layout!(Icmp6StatsBuffer {
    num: i64,
    in_msgs: i64,
    in_errors: i64,
    out_msgs: i64,
    out_errors: i64,
    csum_errors: i64,
    rate_limit_host: i64
});
layout!(Inet6StatsBuffer {
    num: i64,
    in_pkts: i64,
    in_octets: i64,
    in_delivers: i64,
    out_forw_datagrams: i64,
    out_requests: i64,
    out_octets: i64,
    in_hdr_errors: i64,
    in_too_big_errors: i64,
    in_no_routes: i64,
    in_addr_errors: i64,
    in_unknown_protos: i64,
    in_truncated_pkts: i64,
    in_discards: i64,
    out_discards: i64,
    out_no_routes: i64,
    reasm_timeout: i64,
    reasm_reqds: i64,
    reasm_oks: i64,
    reasm_fails: i64,
    frag_oks: i64,
    frag_fails: i64,
    frag_creates: i64,
    in_mcast_pkts: i64,
    out_mcast_pkts: i64,
    in_bcast_pkts: i64,
    out_bcast_pkts: i64,
    in_mcast_octets: i64,
    out_mcast_octets: i64,
    in_bcast_octets: i64,
    out_bcast_octets: i64,
    in_csum_errors: i64,
    in_no_ect_pkts: i64,
    in_ect1_pkts: i64,
    in_ect0_pkts: i64,
    in_ce_pkts: i64,
    reasm_overlaps: i64,
    out_pkts: i64
});
layout!(BridgeIdBuffer {
    priority: u16,
    address: [6]
});
layout!(VfInfoBroadcastBuffer { addr: [32] });
layout!(VfInfoGuidBuffer {
    vf_id: u32,
    guid: u64
});
layout!(VfInfoLinkStateBuffer {
    vf_id: u32,
    state: u32
});
layout!(VfInfoMacBuffer {
    vf_id: u32,
    mac: [32]
});
layout!(VfInfoRateBuffer {
    vf_id: u32,
    min_tx_rate: u32,
    max_tx_rate: u32
});
layout!(VfInfoRssQueryEnBuffer {
    vf_id: u32,
    setting: u32
});
layout!(VfInfoSpoofCheckBuffer {
    vf_id: u32,
    setting: u32
});
layout!(VfInfoTrustBuffer {
    vf_id: u32,
    setting: u32
});
layout!(VfInfoTxRateBuffer {
    vf_id: u32,
    rate: u32
});
layout!(VfInfoVlanBuffer {
    vf_id: u32,
    vlan_id: u32,
    qos: u32
});

message!(LinkMessageBuffer: LinkMessage, LinkHeader);
value! {
    BridgeIdBuffer: BridgeId;
    Inet6CacheInfoBuffer: Inet6CacheInfo;
    MapBuffer: Map;
}
numbers! {
    Icmp6StatsBuffer: Icmp6Stats;
    Inet6DevConfBuffer: Inet6DevConf;
    Inet6StatsBuffer: Inet6Stats;
    StatsBuffer: Stats;
    Stats64Buffer: Stats64;
}
value! {
    VfInfoBroadcastBuffer: VfInfoBroadcast;
    VfInfoGuidBuffer: VfInfoGuid;
    VfInfoLinkStateBuffer: VfInfoLinkState;
    VfInfoMacBuffer: VfInfoMac;
    VfInfoRateBuffer: VfInfoRate;
    VfInfoTxRateBuffer: VfInfoTxRate;
    VfInfoVlanBuffer: VfInfoVlan;
    VfInfoRssQueryEnBuffer: VfInfoRssQueryEn;
    VfInfoSpoofCheckBuffer: VfInfoSpoofCheck;
    VfInfoTrustBuffer: VfInfoTrust;
}

impl<'a, T: AsRef<[u8]> + 'a> ParseableParametrized<LinkMessageBuffer<&'a T>, AddressFamily>
    for Vec<LinkAttribute>
{
    fn parse_with_param(
        buffer: &LinkMessageBuffer<&'a T>,
        family: AddressFamily,
    ) -> Result<Self, DecodeError> {
        list(buffer.payload(), family)
    }
}

#[cfg(upstream_tests)]
include!(concat!(env!("OUT_DIR"), "/upstream/link.rs"));

// Private types that these name.
#[cfg(upstream_tests)]
crate::buffers::lists! {
    VecAfSpecBridge AfSpecBridge;
    VecAfSpecUnspec AfSpecUnspec;
    VecLinkXdp LinkXdp;
}

// Private modules that these name.
#[cfg(upstream_tests)]
crate::buffers::same_as_this!(link_flag af_spec link_info xdp);
