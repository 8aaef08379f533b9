//! Lists of attributes by themselves, and the count of looks at headers.

use netlink_packet_route::AddressFamily;
use netlink_packet_route::framing::{
    Attribute, DecodeError, Emitable, Looks, Nla, check_list, clone_list, emit_list, parse_list,
};
use netlink_packet_route::route::{
    RouteAttribute, RouteLwEnCapType, RouteMetric, RouteType, read_route_list,
};
use npr_testing::{bytes_of, same, shows};
use std::test::Fail;

const UNDER: (AddressFamily, RouteType) = (AddressFamily::Inet, RouteType::Unicast);

const UNDER_MPLS: (AddressFamily, RouteType, RouteLwEnCapType) = (
    AddressFamily::Inet,
    RouteType::Unicast,
    RouteLwEnCapType::Mpls,
);

/// An encapsulation whose member 1 is a label under MPLS, and that type.
const LABELS: &str = "0c001600 08000100 000641ff 06001500 01000000";

/// What `LABELS` is.
const LABELS_TEXT: &str =
    "[Encap([Mpls(Destination([MplsLabel { label: 100, traffic_class: 0, bottom_of_stack: true, ttl: 255 }]))]), EncapType(Mpls)]";

/// The search for a type looks at two attributes, and the reading at those and the one inside.
#[test]
fn reads_a_route_list(rt: HostRuntime) -> Result<(), Fail> {
    let bytes = bytes_of(&rt, &[LABELS])?;
    let mut looks = Looks::new();
    let list = read_route_list(rt.alloc(), bytes.as_slice(), UNDER, &mut looks)?;
    same((looks.successful(), looks.failed()), (5, 0))?;
    shows(&rt, list, LABELS_TEXT)
}

#[test]
fn refuses_a_route_list(rt: HostRuntime) -> Result<(), Fail> {
    let mut looks = Looks::new();
    let short = read_route_list(rt.alloc(), &[8, 0, 1], UNDER, &mut looks);
    same(short.err(), Some(DecodeError::AttributeTooShort { got: 3 }))?;
    same((looks.successful(), looks.failed()), (0, 2))
}

/// What the bytes are as a list, and the looks at its headers.
fn list_of<A: Attribute>(
    rt: &impl AllocGlobal,
    context: A::Context,
    bytes: &[u8],
) -> (Result<Vec<A>, DecodeError>, (u64, u64)) {
    let mut looks = Looks::new();
    let list = parse_list(rt.alloc(), context, bytes, &mut looks);
    (list, (looks.successful(), looks.failed()))
}

/// Looks inside an attribute count.
#[test]
fn reads_members_of_a_list(rt: HostRuntime) -> Result<(), Fail> {
    let bytes = bytes_of(&rt, &[LABELS])?;
    let (list, looks) = list_of::<RouteAttribute>(&rt, UNDER_MPLS, bytes.as_slice());
    same(looks, (3, 0))?;
    shows(&rt, list?, LABELS_TEXT)
}

/// Metrics of three bytes: a look at their attribute, and a failed one inside.
#[test]
fn counts_a_failed_look_inside(rt: HostRuntime) -> Result<(), Fail> {
    let (list, looks) = list_of::<RouteAttribute>(&rt, UNDER_MPLS, &[7, 0, 8, 0, 1, 2, 3]);
    same(list.err(), Some(DecodeError::AttributeTooShort { got: 3 }))?;
    same(looks, (1, 1))
}

/// The list is written into room for seven bytes more.
#[test]
fn metrics(rt: HostRuntime) -> Result<(), Fail> {
    let mut bytes = bytes_of(&rt, &["08000200 dc050000 08001000 62627200"])?;
    let (list, _) = list_of::<RouteMetric>(&rt, (), bytes.as_slice());
    let list = list?;
    let length = check_list(list.as_slice())?;
    let mut out = vec![in rt.alloc(); 0xffu8; length]?;
    out.extend_from_slice(&[0xff; 7])?;
    emit_list(list.as_slice(), out.as_mut_slice());
    bytes.extend_from_slice(&[0xff; 7])?;
    same(out, bytes)?;
    shows(&rt, list, "[Mtu(1500), CcAlgo(\"bbr\")]")
}

#[test]
fn a_copy_of_a_list(rt: HostRuntime) -> Result<(), Fail> {
    let bytes = bytes_of(&rt, &[LABELS])?;
    let (list, _) = list_of::<RouteAttribute>(&rt, UNDER_MPLS, bytes.as_slice());
    let copy = clone_list(rt.alloc(), list?.as_slice())?;
    shows(&rt, copy, LABELS_TEXT)
}

/// The value alone, without its header.
fn has_value<A: Nla + Drop>(
    rt: &impl AllocGlobal,
    attribute: A,
    texts: &[&str],
) -> Result<(), Fail> {
    attribute.check()?;
    let length = attribute.value_len();
    let mut out = vec![in rt.alloc(); 0xffu8; length]?;
    attribute.emit_value(out.as_mut_slice());
    same(out, bytes_of(rt, texts)?)
}

#[test]
fn a_value_alone(rt: HostRuntime) -> Result<(), Fail> {
    has_value(&rt, RouteAttribute::Sport(443), &["01bb"])
}
