//! Prefixes.

use crate::buffers::{attributes, layout, message, value};
pub use crate::netlink_packet_route::prefix::*;
use netlink_packet_core::{DecodeError, NlaBuffer, NlasIterator};

layout!(CacheInfoBuffer {
    preferred_time: u32,
    valid_time: u32
});
layout!(PrefixMessageBuffer {
    prefix_family: u8,
    pad1: u8,
    pad2: u16,
    ifindex: i32,
    prefix_type: u8,
    prefix_len: u8,
    flags: u8,
    pad3: u8,
    payload: ..
});

message!(PrefixMessageBuffer: PrefixMessage, PrefixHeader);
attributes!(PrefixMessageBuffer: PrefixAttribute);
value!(CacheInfoBuffer: CacheInfo;);

impl<'a, T: AsRef<[u8]> + ?Sized> PrefixMessageBuffer<&'a T> {
    pub fn nlas(&self) -> impl Iterator<Item = Result<NlaBuffer<&'a [u8]>, DecodeError>> {
        NlasIterator::new(self.payload())
    }
}

#[cfg(upstream_tests)]
include!(concat!(env!("OUT_DIR"), "/upstream/prefix.rs"));

// Private modules that these name.
#[cfg(upstream_tests)]
crate::buffers::same_as_this!(attribute cache_info header);
