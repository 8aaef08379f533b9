//! `netlink-packet-route` 0.28, by the text of a proved library: see the package `yilubhexo`, whose types these are, but where
//! upstream types otherwise. What is written by hand for that stands in `default_nla`, `peer`, `tc_options` and `buffers`.
#![forbid(unsafe_code)]
#![allow(
    non_upper_case_globals,
    unused_imports,
    unused_variables,
    dead_code,
    missing_docs
)]
#![allow(clippy::all)]

#[cfg(not(all(target_pointer_width = "64", target_endian = "little")))]
compile_error!("the text is proved for 64 bits, with the lowest byte first");

#[macro_use]
extern crate netlink_packet_core as core_crate;

include!(concat!(env!("OUT_DIR"), "/modules.rs"));
pub mod address;
mod besides;
mod buffers;
#[path = "../../netlink-packet-route/src/core_traits.rs"]
mod core_traits;
mod default_nla;
mod extent_mask;
mod kept;
pub mod link;
#[path = "../../netlink-packet-route/src/memory.rs"]
pub mod memory;
mod message_buffer;
pub mod neighbour;
pub mod neighbour_table;
pub mod nsid;
mod peer;
#[path = "../../netlink-packet-route/src/plain.rs"]
mod plain;
pub mod prefix;
pub mod route;
pub mod rule;
#[path = "../../netlink-packet-route/src/sets.rs"]
mod sets;
pub mod tc;
mod tc_options;

pub use crate::netlink_packet_route::*;
pub use message_buffer::RouteNetlinkMessageBuffer;
pub use plain::Fault;

// Upstream's own tests, in the module that they are in there.
#[cfg(upstream_tests)]
include!(concat!(env!("OUT_DIR"), "/upstream/root.rs"));

#[cfg(test)]
mod refused {
    /// Whether a request for memory is refused: in the other package's tests alone.
    pub(crate) fn is_refused() -> bool {
        false
    }
}
