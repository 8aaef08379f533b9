//! Addresses.

use crate::buffers::{attributes, layout, message, value};
pub use crate::netlink_packet_route::address::*;

layout!(CacheInfoBuffer {
    ifa_preferred: u32,
    ifa_valid: u32,
    cstamp: u32,
    tstamp: u32
});
layout!(AddressMessageBuffer {
    family: u8,
    prefix_len: u8,
    flags: u8,
    scope: u8,
    index: u32,
    payload: ..
});

message!(AddressMessageBuffer: AddressMessage, AddressHeader);
attributes!(AddressMessageBuffer: AddressAttribute);
value!(CacheInfoBuffer: CacheInfo;);

#[cfg(upstream_tests)]
include!(concat!(env!("OUT_DIR"), "/upstream/address.rs"));
