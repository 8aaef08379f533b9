//! Rules.

use crate::buffers::{attributes, layout, message};
pub use crate::netlink_packet_route::rule::*;

layout!(RuleMessageBuffer {
    family: u8,
    dst_len: u8,
    src_len: u8,
    tos: u8,
    table: u8,
    reserve_1: u8,
    reserve_2: u8,
    action: u8,
    flags: u32,
    payload: ..
});

message!(RuleMessageBuffer: RuleMessage, RuleHeader);
attributes!(RuleMessageBuffer: RuleAttribute);

#[cfg(upstream_tests)]
include!(concat!(env!("OUT_DIR"), "/upstream/rule.rs"));

// Private modules that these name.
#[cfg(upstream_tests)]
crate::buffers::same_as_this!(flags);
