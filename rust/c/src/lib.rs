//! The library for C of messages of Linux rtnetlink, `netlink_packet_route.h`, made of the proved text
//! without its proofs. What `extern "C"` needs of `unsafe` stands in `exported`.
#![deny(unsafe_code)]
// Flags have upstream's names; clauses alone name some imports and labels; C calls a part of it.
#![allow(
    non_upper_case_globals,
    unused_imports,
    unused_variables,
    unused_labels,
    dead_code,
    unknown_lints,
    clippy::manual_is_multiple_of,
    clippy::manual_map,
    clippy::manual_unwrap_or,
    clippy::manual_unwrap_or_default,
    clippy::match_like_matches_macro,
    clippy::needless_range_loop,
    clippy::type_complexity,
    clippy::while_let_on_iterator,
    clippy::wrong_self_convention
)]

#[cfg(not(all(target_pointer_width = "64", target_endian = "little")))]
compile_error!("the text is proved for 64 bits, with the lowest byte first");

include!(concat!(env!("OUT_DIR"), "/modules.rs"));
include!(concat!(env!("OUT_DIR"), "/c.rs"));
mod exported;
#[path = "../../netlink-packet-route/src/memory.rs"]
mod memory;
#[path = "../../netlink-packet-route/src/plain.rs"]
mod plain;
#[path = "../../netlink-packet-route/src/sets.rs"]
mod sets;

use crate::netlink_packet_route::*;
