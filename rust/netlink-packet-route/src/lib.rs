//! Messages of Linux rtnetlink on links, addresses, routes, rules, neighbours and their tables, next hops,
//! name spaces, settings, address labels, prefixes, statistics and traffic control: bytes to typed values and
//! back.
//!
//! What a socket gives is gone through message by message:
//!
//! ```
//! use netlink_packet_route::RouteNetlinkMessage::NewAddress;
//! use netlink_packet_route::address::AddressAttribute;
//! use netlink_packet_route::envelope::{NetlinkMessage, NetlinkPayload::InnerMessage};
//! use std::net::IpAddr;
//!
//! # fn main() -> Result<(), netlink_packet_route::Fault> {
//! // 127.0.0.1/8 on the interface 1
//! let datagram = [
//!     32, 0, 0, 0, 20, 0, 0, 0, 1, 0, 0, 0, 0, 0, 0, 0, 2, 8, 128, 254, 1, 0, 0, 0, 8, 0, 1, 0, 127, 0, 0, 1,
//! ];
//! for message in NetlinkMessage::all(&datagram) {
//!     if let InnerMessage(NewAddress(address)) = message?.payload {
//!         assert_eq!((address.header.index, address.header.prefix_len), (1, 8));
//!         assert_eq!(address.attributes, [AddressAttribute::Address(IpAddr::from([127, 0, 0, 1]))]);
//!     }
//! }
//! # Ok(())
//! # }
//! ```
//!
//! A message without its envelope is read by `try_from` and written by `to_bytes`, whatever its kind
//! ([`MessageKind`]):
//!
//! ```
//! use netlink_packet_route::AddressFamily;
//! use netlink_packet_route::route::{RouteAttribute, RouteMessage};
//! use std::net::Ipv4Addr;
//!
//! let mut route = RouteMessage::default();
//! route.header.address_family = AddressFamily::Inet;
//! route.header.destination_prefix_length = 24;
//! route.attributes.push(RouteAttribute::Destination(Ipv4Addr::new(192, 0, 2, 0).into()));
//! let bytes = route.to_bytes()?;
//! assert_eq!(RouteMessage::try_from(&bytes[..])?, route);
//! # Ok::<(), Box<dyn std::error::Error>>(())
//! ```
//!
//! [`locate`] tells in words what is wrong with bytes, at which attribute, and where:
//!
//! ```
//! use netlink_packet_route::{MessageKind, locate};
//!
//! let link = [0, 0, 1, 0, 2, 0, 0, 0, 0, 0, 0, 0, 0, 0, 0, 0, 6, 0, 4, 0, 220, 5, 0, 0];
//! let refusal = locate(MessageKind::Link, &link).unwrap_err();
//! assert_eq!(
//!     refusal.to_string(),
//!     "a value of 2 bytes at IFLA_MTU (4), where 4 are wanted, at byte 16"
//! );
//! ```
//!
//! The feature `core` gives messages the traits of `netlink-packet-core`, which `netlink-proto` asks for.
//! Calls of the traits take an allocator, [`memory::Global`]; those above take none.
//!
//! The feature `serde` gives messages, and what they hold, `Serialize`: fields and variants by their names,
//! sets of flags as their numbers, bytes and addresses as those of the standard library. There is no
//! `Deserialize`: what it made could be a value that no bytes mean, which is not read back as it is written.
//!
//! The text of the modules is that of a library that is proved in Rattle, without its contracts.
//! `memory`, `plain`, `sets` and `core_traits` are written by hand. Where the proved text asks something
//! of a caller, its documentation says `Asks`, and nothing here tests it.
//!
//! # Panics
//! A call that asks may panic where it is not so. On a slice that is too short it does; of a value that
//! `check` refuses it may also answer a length or write bytes that are wrong.
#![forbid(unsafe_code)]
#![deny(missing_docs)]
// Flags have upstream's names; clauses alone name some imports, and rows of macros use not each name.
#![allow(non_upper_case_globals, unused_imports, unused_variables)]
// Forms that the prover asks for, or names of upstream.
#![allow(
    clippy::len_without_is_empty,
    clippy::manual_map,
    clippy::manual_unwrap_or,
    clippy::manual_unwrap_or_default,
    clippy::match_like_matches_macro,
    clippy::needless_range_loop,
    clippy::new_without_default,
    clippy::question_mark,
    clippy::type_complexity,
    clippy::while_let_on_iterator,
    clippy::wrong_self_convention
)]
#![cfg_attr(test, allow(clippy::needless_borrows_for_generic_args))]
#![cfg_attr(test, allow(dead_code))]

#[cfg(not(all(target_pointer_width = "64", target_endian = "little")))]
compile_error!("the text is proved for 64 bits, with the lowest byte first");

include!(concat!(env!("OUT_DIR"), "/modules.rs"));
#[cfg(feature = "core")]
mod core_traits;
#[cfg(test)]
mod fuzzed;
pub mod memory;
mod plain;
#[cfg(test)]
mod refused;
mod sets;
#[cfg(test)]
mod testing;
#[cfg(test)]
include!(concat!(env!("OUT_DIR"), "/tests.rs"));

pub use crate::netlink_packet_route::*;
pub use plain::Fault;
