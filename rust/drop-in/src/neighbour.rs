//! Neighbours.

use crate::AddressFamily;
use crate::buffers::{layout, list, message, value};
pub use crate::netlink_packet_route::neighbour::*;
use netlink_packet_core::{DecodeError, ParseableParametrized};

layout!(NeighbourCacheInfoBuffer {
    confirmed: u32,
    used: u32,
    updated: u32,
    refcnt: u32
});
layout!(NeighbourMessageBuffer {
    family: u8, - 3, ifindex: u32, state: u16, flags: u8, kind: u8, payload: ..
});

message!(NeighbourMessageBuffer: NeighbourMessage, NeighbourHeader);
value!(NeighbourCacheInfoBuffer: NeighbourCacheInfo;);

impl<'a, T: AsRef<[u8]> + 'a> ParseableParametrized<NeighbourMessageBuffer<&'a T>, AddressFamily>
    for Vec<NeighbourAttribute>
{
    fn parse_with_param(
        buffer: &NeighbourMessageBuffer<&'a T>,
        family: AddressFamily,
    ) -> Result<Self, DecodeError> {
        list(buffer.payload(), family)
    }
}

#[cfg(upstream_tests)]
include!(concat!(env!("OUT_DIR"), "/upstream/neighbour.rs"));

// Private modules that these name.
#[cfg(upstream_tests)]
crate::buffers::same_as_this!(flags);
