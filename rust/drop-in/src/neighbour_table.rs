//! Tables of neighbours.

use crate::buffers::{attributes, layout, message, value};
pub use crate::netlink_packet_route::neighbour_table::*;

layout!(NeighbourTableConfigBuffer {
    key_len: u16,
    entry_size: u16,
    entries: u32,
    last_flush: u32,
    last_rand: u32,
    hash_rand: u32,
    hash_mask: u32,
    hash_chain_gc: u32,
    proxy_qlen: u32
});
layout!(NeighbourTableMessageBuffer { family: u8, - 3, payload: .. });
layout!(NeighbourTableStatsBuffer {
    allocs: u64,
    destroys: u64,
    hash_grows: u64,
    res_failed: u64,
    lookups: u64,
    hits: u64,
    multicast_probes_received: u64,
    unicast_probes_received: u64,
    periodic_gc_runs: u64,
    forced_gc_runs: u64,
    table_fulls: u64
});

message!(NeighbourTableMessageBuffer: NeighbourTableMessage, NeighbourTableHeader);
attributes!(NeighbourTableMessageBuffer: NeighbourTableAttribute);
value! {
    NeighbourTableConfigBuffer: NeighbourTableConfig;
    NeighbourTableStatsBuffer: NeighbourTableStats;
}

#[cfg(upstream_tests)]
include!(concat!(env!("OUT_DIR"), "/upstream/neighbour_table.rs"));
