//! Name spaces.

use crate::buffers::{attributes, layout, message};
pub use crate::netlink_packet_route::nsid::*;

layout!(NsidMessageBuffer { family: u8, - 3, payload: .. });

message!(NsidMessageBuffer: NsidMessage, NsidHeader);
attributes!(NsidMessageBuffer: NsidAttribute);

#[cfg(upstream_tests)]
include!(concat!(env!("OUT_DIR"), "/upstream/nsid.rs"));
