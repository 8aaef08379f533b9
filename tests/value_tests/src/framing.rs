//! The framing of attributes, addresses of IP and address families.

use netlink_packet_route::AddressFamily;
use netlink_packet_route::framing::{
    DecodeError, DefaultNla, EmitError, Looks, Nla, NlaBuffer, NlasIterator, Parseable,
};
use netlink_packet_route::net::{IpAddr, Ipv4Addr, Ipv6Addr, emit_v6_list, read_v6_list};
use npr_testing::{FIRST, holds, same, writes};
use std::test::Fail;

#[test]
fn reads_a_header() -> Result<(), Fail> {
    let bytes = [0x08, 0x00, 0x63, 0xc0, 0xde, 0xad, 0xbe, 0xef];
    let item = NlaBuffer::new_checked(&bytes)?;
    same(item.length(), 8)?;
    same(item.kind(), 0x0063)?;
    same(item.raw_kind(), 0xc063)?;
    holds(item.nested_flag())?;
    holds(item.network_byte_order_flag())?;
    holds(item.value() == &bytes[4..])
}

#[test]
fn refuses_a_length() -> Result<(), Fail> {
    let fault = NlaBuffer::new_checked(&[3, 0, 1, 0]).err();
    same(
        fault,
        Some(DecodeError::AttributeLength { length: 3, left: 4 }),
    )
}

/// The next attribute has this kind and this value.
fn is_next(walk: &mut NlasIterator<'_>, kind: u16, value: &[u8]) -> Result<(), Fail> {
    match walk.next() {
        Some(Ok(item)) => same((item.kind(), item.value()), (kind, value)),
        _ => Err(Fail::new("no attribute")),
    }
}

#[test]
fn walks_without_the_last_padding() -> Result<(), Fail> {
    let bytes = [5, 0, 1, 0, 0xaa, 9, 9, 9, 6, 0, 2, 0, 0xbb, 0xcc];
    let mut walk = NlasIterator::new(&bytes);
    is_next(&mut walk, 1, &[0xaa])?;
    is_next(&mut walk, 2, &[0xbb, 0xcc])?;
    holds(walk.next().is_none())
}

#[test]
fn ends_at_a_fault() -> Result<(), Fail> {
    let mut looks = Looks::new();
    let mut walk = NlasIterator::new(&[4, 0, 1, 0, 0, 0]);
    holds(walk.next_counted(&mut looks).is_some())?;
    let fault = walk.next_counted(&mut looks).ok_or("a fault")?.err();
    same(fault, Some(DecodeError::AttributeTooShort { got: 2 }))?;
    holds(walk.next_counted(&mut looks).is_none())?;
    same((looks.successful(), looks.failed()), (1, 1))
}

#[test]
fn makes_addresses() -> Result<(), Fail> {
    let loopback = Ipv4Addr::new(127, 0, 0, 1);
    same(loopback.octets(), [127, 0, 0, 1])?;
    same(IpAddr::from(loopback), IpAddr::from([127, 0, 0, 1]))?;
    holds(IpAddr::from(loopback).is_ipv4())?;
    let address = Ipv6Addr::from(FIRST);
    same(address.octets(), FIRST)?;
    same(IpAddr::from(address), IpAddr::from(FIRST))?;
    holds(IpAddr::from(address).is_ipv6())
}

#[test]
fn reads_a_list_of_addresses(rt: HostRuntime) -> Result<(), Fail> {
    let list = read_v6_list(rt.alloc(), &FIRST)?;
    holds(list.as_slice() == [Ipv6Addr::from(FIRST)].as_slice())
}

#[test]
fn writes_a_list_of_addresses() -> Result<(), Fail> {
    let mut out = [0xffu8; 16];
    emit_v6_list(&[Ipv6Addr::from(FIRST)], &mut out);
    same(out, FIRST)
}

#[test]
fn numbers_address_families() -> Result<(), Fail> {
    same(AddressFamily::from(255), AddressFamily::Other(255))?;
    same(u8::from(AddressFamily::Other(255)), 255)?;
    same(AddressFamily::from(10), AddressFamily::Inet6)?;
    same(u8::from(AddressFamily::Route), 16)
}

#[test]
fn keeps_an_unknown_attribute(rt: HostRuntime) -> Result<(), Fail> {
    let item = NlaBuffer::new_checked(&[6, 0, 0x63, 0xc0, 0xaa, 0xbb])?;
    let nla = DefaultNla::parse(rt.alloc(), &item)?;
    same(nla.kind(), 0xc063)?;
    holds(nla.value() == [0xaa, 0xbb].as_slice())?;
    writes(&rt, nla, &["060063c0 aabb0000"])
}

#[test]
fn copies_an_unknown_attribute(rt: HostRuntime) -> Result<(), Fail> {
    let value = [0xaa, 0xbb].to_vec(rt.alloc())?;
    let nla = DefaultNla::new(0xc063, value);
    let copy = nla.try_clone(rt.alloc())?;
    same(copy, nla)
}

#[test]
fn names_refusals() -> Result<(), Fail> {
    let short = DecodeError::AttributeTooShort { got: 2 };
    let kind = 1;
    let len = 65_532;
    same(DecodeError::OutOfMemory.name(), "OutOfMemory")?;
    same(short.name(), "AttributeTooShort")?;
    same(EmitError::Total.name(), "Total")?;
    same(EmitError::TooLong { kind, len }.name(), "TooLong")
}
