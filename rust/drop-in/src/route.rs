//! Routes.

use crate::AddressFamily;
use crate::buffers::{layout, message, value};
use crate::framing::Looks;
use crate::memory::Global;
pub use crate::netlink_packet_route::route::*;
use netlink_packet_core::{DecodeError, NlaBuffer, NlasIterator, Parseable, ParseableParametrized};

layout!(RouteCacheInfoBuffer {
    clntref: u32,
    last_use: u32,
    expires: u32,
    error: u32,
    used: u32,
    id: u32,
    ts: u32,
    ts_age: u32
});
layout!(RouteMessageBuffer {
    address_family: u8,
    destination_prefix_length: u8,
    source_prefix_length: u8,
    tos: u8,
    table: u8,
    protocol: u8,
    scope: u8,
    kind: u8,
    flags: u32,
    payload: ..
});
layout!(RouteMfcStatsBuffer {
    packets: u64,
    bytes: u64,
    wrong_if: u64
});
layout!(RouteNextHopBuffer unchecked {
    length: u16, flags: u8, hops: u8, interface_index: u32, payload: ..
});
layout!(RouteViaBuffer {
    address_family: u16,
    address: ..
});

message!(RouteMessageBuffer: RouteMessage, RouteHeader);
value! {
    RouteCacheInfoBuffer: RouteCacheInfo;
    RouteMfcStatsBuffer: RouteMfcStats;
}

impl<'a, T: AsRef<[u8]> + 'a>
    ParseableParametrized<RouteMessageBuffer<&'a T>, (AddressFamily, RouteType)>
    for Vec<RouteAttribute>
{
    fn parse_with_param(
        buffer: &RouteMessageBuffer<&'a T>,
        under: (AddressFamily, RouteType),
    ) -> Result<Self, DecodeError> {
        let looks = &mut Looks::new();
        Ok(read_route_list(Global, buffer.payload(), under, looks)?)
    }
}

impl<T: AsRef<[u8]> + ?Sized> Parseable<RouteViaBuffer<&T>> for RouteVia {
    fn parse(buffer: &RouteViaBuffer<&T>) -> Result<Self, DecodeError> {
        Ok(RouteVia::parse(Global, buffer.inner())?)
    }
}

impl<T: AsRef<[u8]>> RouteNextHopBuffer<T> {
    pub fn new_checked(buffer: T) -> Result<Self, DecodeError> {
        crate::netlink_packet_route::route::RouteNextHopBuffer::new_checked(buffer.as_ref())?;
        Ok(Self { buffer })
    }
}

impl<'a, T: AsRef<[u8]> + ?Sized> RouteNextHopBuffer<&'a T> {
    pub fn attributes(&self) -> impl Iterator<Item = Result<NlaBuffer<&'a [u8]>, DecodeError>> {
        NlasIterator::new(&self.payload()[..usize::from(self.length()) - 8])
    }
}

/// What the attributes of a next hop are read in.
type Context = (AddressFamily, RouteType, RouteLwEnCapType);

/// The first next hop of the bytes.
impl<T: AsRef<[u8]>> ParseableParametrized<RouteNextHopBuffer<&T>, Context> for RouteNextHop {
    fn parse_with_param(
        buffer: &RouteNextHopBuffer<&T>,
        context: Context,
    ) -> Result<Self, DecodeError> {
        let bytes = &buffer.inner()[..usize::from(buffer.length())];
        let mut hops = read_next_hops(Global, bytes, context, &mut Looks::new())?;
        hops.pop().ok_or_else(|| "there is no next hop".into())
    }
}

impl<'a, T: AsRef<[u8]> + 'a> ParseableParametrized<RouteNextHopBuffer<&'a T>, Context>
    for Vec<RouteAttribute>
{
    fn parse_with_param(
        buffer: &RouteNextHopBuffer<&'a T>,
        context: Context,
    ) -> Result<Self, DecodeError> {
        Ok(RouteNextHop::parse_with_param(buffer, context)?.attributes)
    }
}

#[cfg(upstream_tests)]
include!(concat!(env!("OUT_DIR"), "/upstream/route.rs"));

// Private modules that these name.
#[cfg(upstream_tests)]
crate::buffers::same_as_this!(flags lwtunnel seg6);
