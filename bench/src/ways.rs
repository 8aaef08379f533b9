//! The ways of reading, over the messages of a kind in one datagram: this library's, upstream's parse, and what libmnl and libnl
//! do with it.

use crate::timing::{Work, print_ratios};
use netlink_packet_core::Parseable;
use netlink_packet_route::route::RouteMessage;
use std::hint::black_box;

unsafe extern "C" {
    fn bench_parse(datagram: *const u8, length: usize) -> u64;
    fn bench_parse_into(datagram: *const u8, length: usize) -> u64;
    fn bench_attributes(datagram: *const u8, length: usize) -> u64;
    fn bench_values(datagram: *const u8, length: usize) -> u64;
}

#[cfg(feature = "peers")]
unsafe extern "C" {
    fn peer_table(datagram: *const u8, length: usize) -> usize;
    fn peer_objects(datagram: *const u8, length: usize) -> usize;
}

/// The bytes of `struct nlmsghdr`.
const ENVELOPE: usize = 16;

/// The messages in envelopes of this type, one after the other.
pub fn datagram(message_type: u16, messages: &[Vec<u8>]) -> Vec<u8> {
    let mut out = Vec::new();
    for message in messages {
        let length = u32::try_from(ENVELOPE + message.len()).expect("a short message");
        out.extend(length.to_le_bytes());
        out.extend(message_type.to_le_bytes());
        out.extend([0; 10]);
        out.extend(message);
        out.resize(out.len().next_multiple_of(4), 0);
    }
    out
}

/// Upstream's parse of each message behind its envelope, which is passed by its length alone: how many it reads.
fn upstream<M: Parseable<[u8]>>(datagram: &[u8]) -> u64 {
    let (mut rest, mut count) = (datagram, 0);
    while let Some((length, _)) = rest.split_first_chunk::<4>() {
        let length = u32::from_le_bytes(*length) as usize;
        let (message, behind) = rest.split_at(length.next_multiple_of(4).min(rest.len()));
        count += u64::from(black_box(M::parse(&message[ENVELOPE..length])).is_ok());
        rest = behind;
    }
    count
}

fn ours(call: unsafe extern "C" fn(*const u8, usize) -> u64, datagram: &[u8]) -> u64 {
    // SAFETY: the call reads the slice, and keeps nothing of it.
    unsafe { call(datagram.as_ptr(), datagram.len()) }
}

#[cfg(feature = "peers")]
fn peer(call: unsafe extern "C" fn(*const u8, usize) -> usize, datagram: &[u8]) -> u64 {
    // SAFETY: as `ours`.
    unsafe { call(datagram.as_ptr(), datagram.len()) as u64 }
}

/// Prints what each way takes for the messages of a datagram, beside upstream's parse.
pub fn compare_ways<M: Parseable<[u8]>>(datagram: &[u8], messages: usize, rounds: usize) {
    #[allow(unused_mut)]
    let mut works: Vec<(&str, Work)> = vec![
        ("upstream: parse", Box::new(|| upstream::<M>(datagram))),
        ("parse", Box::new(|| ours(bench_parse, datagram))),
        ("parse_into", Box::new(|| ours(bench_parse_into, datagram))),
        ("attributes", Box::new(|| ours(bench_attributes, datagram))),
        ("values", Box::new(|| ours(bench_values, datagram))),
    ];
    #[cfg(feature = "peers")]
    works.extend::<[(&str, Work); 2]>([
        ("libmnl: a table", Box::new(|| peer(peer_table, datagram))),
        ("libnl: objects", Box::new(|| peer(peer_objects, datagram))),
    ]);
    print_ratios(&works, messages, rounds);
}

/// A route of a kernel's dump: table, destination, metric, gateway and interface.
fn made_route(number: u32) -> Vec<u8> {
    let mut out = vec![2, 24, 0, 0, 254, 3, 0, 1, 0, 0, 0, 0];
    let mut attribute = |kind: u16, value: [u8; 4]| {
        out.extend(8u16.to_le_bytes());
        out.extend(kind.to_le_bytes());
        out.extend(value);
    };
    attribute(15, 254u32.to_le_bytes());
    attribute(1, number.to_be_bytes());
    attribute(6, 100u32.to_le_bytes());
    attribute(5, [192, 0, 2, 1]);
    attribute(4, 2u32.to_le_bytes());
    out
}

/// The same for a dump of so many routes.
pub fn compare_dump(routes: u32, rounds: usize) {
    let all: Vec<Vec<u8>> = (0..routes).map(made_route).collect();
    println!("dump: {routes} routes");
    compare_ways::<RouteMessage>(&datagram(24, &all), all.len(), rounds);
}
